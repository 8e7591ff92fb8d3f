//! The layers of a picture: gap 0, line 1, gap 1, line 2, .. with their events, conditions and slots, and the links between one
//! layer and the next.
//!
//! A long edge takes a slot in each layer that it passes, so that it runs through nothing. Edges of one kind at one condition share
//! their slots as far as they go together: a token that is marked for many events has one trunk, not many lines side by side.

use super::{edges, Kind, Thing};
use crate::run::{MarkKind, Run};
use std::collections::BTreeMap;

/// With more slots than this the long marks are drawn straight, beneath everything else.
const SLOT_BUDGET: usize = 6000;

#[derive(Clone, Copy, Debug)]
pub struct Node {
    /// None: a slot.
    pub thing: Option<Thing>,
    pub layer: usize,
    /// A condition that nobody consumed.
    pub ringed: bool,
}

/// A piece of one or more edges, from a layer to the next.
#[derive(Clone, Copy, Debug)]
pub struct Link {
    pub from: usize,
    pub to: usize,
    pub kind: Kind,
}

#[derive(Clone, Debug)]
pub struct Edge {
    pub kind: Kind,
    pub from: Thing,
    pub to: Thing,
    /// From left to right; none where the edge is drawn straight.
    pub links: Vec<usize>,
}

pub struct Layers {
    pub nodes: Vec<Node>,
    pub links: Vec<Link>,
    pub edges: Vec<Edge>,
    /// The nodes of each layer, from top to bottom.
    pub order: Vec<Vec<usize>>,
    /// Initial conditions without any edge. They have no place in an order and are put where there is room.
    pub loose: Vec<usize>,
    events: usize,
}

impl Layers {
    pub fn of(run: &Run) -> Layers {
        let mut layers = Layers::without_edges(run);
        let edges = edges(run);
        let marks_have_slots = layers.slots_needed(&edges) <= SLOT_BUDGET;
        let mut building = Building::default();
        for (kind, from, to) in edges {
            let span = layers.nodes[layers.node(to)].layer - layers.nodes[layers.node(from)].layer;
            let straight = span > 1 && kind != Kind::Arc && !marks_have_slots;
            let links = if straight { Vec::new() } else { building.links(&mut layers, kind, from, to) };
            layers.edges.push(Edge { kind, from, to, links });
        }
        layers.set_loose_apart();
        layers
    }

    /// Events and conditions in their layers.
    fn without_edges(run: &Run) -> Layers {
        let line = line_of_events(run);
        let events = line.iter().enumerate().map(|(event, line)| Node { thing: Some(Thing::Event(event)), layer: 2 * line + 1, ringed: false });
        let gaps = gap_of_conditions(run, &line);
        let conditions = gaps.iter().zip(&run.record.conditions).enumerate().map(|(number, (gap, condition))| {
            Node { thing: Some(Thing::Condition(number)), layer: 2 * gap, ringed: condition.consumer.is_none() }
        });
        let nodes: Vec<Node> = events.chain(conditions).collect();
        let mut order = vec![Vec::new(); 2 * run.lines.len() + 1];
        for (number, node) in nodes.iter().enumerate() {
            order[node.layer].push(number);
        }
        Layers { nodes, links: Vec::new(), edges: Vec::new(), order, loose: Vec::new(), events: line.len() }
    }

    /// The node of an event or a condition.
    pub fn node(&self, thing: Thing) -> usize {
        match thing {
            Thing::Event(event) => event,
            Thing::Condition(condition) => self.events + condition,
        }
    }

    pub fn is_slot(&self, node: usize) -> bool {
        self.nodes[node].thing.is_none()
    }

    /// How many slots the long edges ask for.
    fn slots_needed(&self, edges: &[(Kind, Thing, Thing)]) -> usize {
        let mut longest: BTreeMap<(usize, char), usize> = BTreeMap::new();
        for (kind, from, to) in edges {
            let span = self.nodes[self.node(*to)].layer.saturating_sub(self.nodes[self.node(*from)].layer + 1);
            let known = longest.entry((condition_of(*from, *to), kind.letter())).or_insert(0);
            *known = span.max(*known);
        }
        longest.values().sum()
    }

    fn add_slot(&mut self, layer: usize) -> usize {
        self.nodes.push(Node { thing: None, layer, ringed: false });
        self.order[layer].push(self.nodes.len() - 1);
        self.nodes.len() - 1
    }

    /// Takes the conditions without an edge out of the order.
    fn set_loose_apart(&mut self) {
        let mut bound = vec![false; self.nodes.len()];
        for edge in &self.edges {
            bound[self.node(edge.from)] = true;
            bound[self.node(edge.to)] = true;
        }
        let (nodes, loose) = (&self.nodes, |node: &usize| !bound[*node] && matches!(self.nodes[*node].thing, Some(Thing::Condition(_))));
        self.loose = (0..nodes.len()).filter(loose).collect();
        for layer in &mut self.order {
            layer.retain(|node| !loose(node));
        }
    }
}

/// The slots and links that were made so far.
#[derive(Default)]
struct Building {
    /// By condition, kind and layer.
    slots: BTreeMap<(usize, char, usize), usize>,
    /// By both ends and kind.
    links: BTreeMap<(usize, usize, char), usize>,
}

impl Building {
    /// The links of an edge, with a slot in each layer between its ends.
    fn links(&mut self, layers: &mut Layers, kind: Kind, from: Thing, to: Thing) -> Vec<usize> {
        let (source, target) = (layers.node(from), layers.node(to));
        let between = layers.nodes[source].layer + 1..layers.nodes[target].layer;
        let mut last = source;
        let mut links = Vec::new();
        for layer in between {
            let slot = *self.slots.entry((condition_of(from, to), kind.letter(), layer)).or_insert_with(|| layers.add_slot(layer));
            links.push(self.link(layers, last, slot, kind));
            last = slot;
        }
        links.push(self.link(layers, last, target, kind));
        links
    }

    fn link(&mut self, layers: &mut Layers, from: usize, to: usize, kind: Kind) -> usize {
        *self.links.entry((from, to, kind.letter())).or_insert_with(|| {
            layers.links.push(Link { from, to, kind });
            layers.links.len() - 1
        })
    }
}

/// The condition at an end of an edge: every edge has one.
fn condition_of(from: Thing, to: Thing) -> usize {
    match (from, to) {
        (Thing::Condition(condition), _) | (_, Thing::Condition(condition)) => condition,
        _ => unreachable!("an edge has a condition at one end"),
    }
}

/// The line of each event, from 0.
pub fn line_of_events(run: &Run) -> Vec<usize> {
    let mut line_of = vec![0; run.record.events.len()];
    for (line, events) in run.lines.iter().enumerate() {
        for event in events {
            line_of[*event] = line;
        }
    }
    line_of
}

/// The gap of each condition: right behind the line of its producer, or right before the first line that has to do with it.
fn gap_of_conditions(run: &Run, line: &[usize]) -> Vec<usize> {
    let conditions = &run.record.conditions;
    let mut first: Vec<Option<usize>> = conditions.iter().map(|condition| condition.consumer.map(|event| line[event])).collect();
    for mark in run.record.marks.iter().filter(|mark| mark.kind != MarkKind::Before) {
        let known = first[mark.condition].unwrap_or(usize::MAX);
        first[mark.condition] = Some(known.min(line[mark.event]));
    }
    let gap = |(number, first): (usize, &Option<usize>)| match conditions[number].producer {
        Some(event) => line[event] + 1,
        None => first.unwrap_or(0),
    };
    first.iter().enumerate().map(gap).collect()
}

#[cfg(test)]
mod tests {
    use super::super::samples;
    use super::*;

    #[test]
    fn every_link_goes_to_the_next_layer() {
        for (name, run) in samples::all() {
            let layers = Layers::of(&run);
            for link in &layers.links {
                assert_eq!(layers.nodes[link.from].layer + 1, layers.nodes[link.to].layer, "{name}");
            }
        }
    }

    #[test]
    fn every_edge_is_there_and_goes_right() {
        for (name, run) in samples::all() {
            let layers = Layers::of(&run);
            let arcs = run.record.conditions.iter().map(|c| usize::from(c.producer.is_some()) + usize::from(c.consumer.is_some()));
            assert_eq!(layers.edges.len(), arcs.sum::<usize>() + run.record.marks.len(), "{name}");
            for edge in &layers.edges {
                let (from, to) = (layers.node(edge.from), layers.node(edge.to));
                assert!(layers.nodes[from].layer < layers.nodes[to].layer, "{name}: {} to {}", edge.from, edge.to);
                if let (Some(first), Some(last)) = (edge.links.first(), edge.links.last()) {
                    assert_eq!((layers.links[*first].from, layers.links[*last].to), (from, to), "{name}");
                }
            }
        }
    }

    #[test]
    fn every_node_is_in_its_layer_once() {
        for (name, run) in samples::all() {
            let layers = Layers::of(&run);
            let mut seen = vec![0; layers.nodes.len()];
            for (layer, nodes) in layers.order.iter().enumerate() {
                nodes.iter().for_each(|node| seen[*node] += 1);
                assert!(nodes.iter().all(|node| layers.nodes[*node].layer == layer), "{name}");
            }
            layers.loose.iter().for_each(|node| seen[*node] += 1);
            assert!(seen.iter().all(|times| *times == 1), "{name}");
        }
    }

    #[test]
    fn long_marks_have_slots_within_the_budget() {
        let straight = |run: &Run| Layers::of(run).edges.iter().filter(|edge| edge.links.is_empty()).count();
        assert_eq!(straight(&samples::example("cache", "shifts")), 0);
        assert!(straight(&samples::long()) > 0);
        assert!(Layers::of(&samples::long()).edges.iter().all(|edge| edge.kind != Kind::Arc || !edge.links.is_empty()));
    }

    #[test]
    fn an_event_is_in_the_column_of_its_line() {
        for (name, run) in samples::all() {
            let layers = Layers::of(&run);
            for (line, events) in run.lines.iter().enumerate() {
                assert!(events.iter().all(|event| layers.nodes[*event].layer == 2 * line + 1), "{name}");
            }
        }
    }
}
