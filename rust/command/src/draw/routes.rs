//! The curves of edges: where a link leaves and reaches a box or a circle, and the path through all links of an edge.

use super::layers::{Edge, Layers};
use super::placing::{Placing, BOX_HEIGHT, RADIUS, RING};
use super::{Kind, Thing};
use crate::run::MarkKind;
use std::fmt::Write;

/// The links at one side of a node are not further apart than this, and stay this near to its middle.
const PORT_PITCH: f64 = 6.5;
const BOX_REACH: f64 = BOX_HEIGHT / 2.0 - 6.0;
const CIRCLE_REACH: f64 = RADIUS * 0.6;

/// The heights at which a link leaves its left node and reaches its right one.
pub type Ports = Vec<[f64; 2]>;

/// The links at each side of a node spread out in the order of their other ends, so that arrows can be told apart.
pub fn ports(layers: &Layers, placing: &Placing) -> Ports {
    let mut ports: Ports = layers.links.iter().map(|link| [placing.y[link.from], placing.y[link.to]]).collect();
    for end in [0, 1] {
        let mut at: Vec<Vec<usize>> = vec![Vec::new(); layers.nodes.len()];
        for (number, link) in layers.links.iter().enumerate() {
            at[[link.from, link.to][end]].push(number);
        }
        for (node, links) in at.iter_mut().enumerate().filter(|(node, _)| !layers.is_slot(*node)) {
            spread(layers, placing, node, links, &mut ports, end);
        }
    }
    ports
}

fn spread(layers: &Layers, placing: &Placing, node: usize, links: &mut [usize], ports: &mut Ports, end: usize) {
    let other = |link: usize| placing.y[[layers.links[link].to, layers.links[link].from][end]];
    links.sort_by(|one, two| other(*one).total_cmp(&other(*two)));
    let reach = match layers.nodes[node].thing {
        Some(Thing::Event(_)) => BOX_REACH,
        _ => CIRCLE_REACH,
    };
    let steps = links.len().saturating_sub(1) as f64;
    let pitch = if steps > 0.0 { PORT_PITCH.min(2.0 * reach / steps) } else { 0.0 };
    for (place, link) in links.iter().enumerate() {
        ports[*link][end] += (place as f64 - steps / 2.0) * pitch;
    }
}

/// The path of an edge, for the attribute `d`. A path begins at the condition, even where the edge ends there: so the dashes of
/// marks that share a trunk fall on one another.
pub fn path(layers: &Layers, placing: &Placing, ports: &Ports, edge: &Edge) -> String {
    let mut points = if edge.links.is_empty() { straight(layers, placing, edge) } else { bends(layers, placing, ports, edge) };
    if begins_right(edge) {
        points.reverse();
    }
    let mut path = format!("M{} {}", short(points[0].0), short(points[0].1));
    points.windows(2).for_each(|pair| curve(&mut path, pair[0], pair[1]));
    path
}

/// Does the path begin at the right end of a mark?
pub fn begins_right(edge: &Edge) -> bool {
    edge.kind == Kind::Mark(MarkKind::Before)
}

/// The points of an edge from left to right: its ends, and both ends of each slot.
fn bends(layers: &Layers, placing: &Placing, ports: &Ports, edge: &Edge) -> Vec<(f64, f64)> {
    let first = edge.links[0];
    let mut points = vec![right_of(layers, placing, layers.links[first].from, ports[first][0])];
    for link in &edge.links {
        let (target, height) = (layers.links[*link].to, ports[*link][1]);
        points.push(left_of(layers, placing, target, height));
        if layers.is_slot(target) && placing.slot_half(layers.nodes[target].layer) > 0.0 {
            points.push(right_of(layers, placing, target, height));
        }
    }
    points
}

/// The ends of an edge without slots.
fn straight(layers: &Layers, placing: &Placing, edge: &Edge) -> Vec<(f64, f64)> {
    let (from, to) = (layers.node(edge.from), layers.node(edge.to));
    vec![right_of(layers, placing, from, placing.y[from]), left_of(layers, placing, to, placing.y[to])]
}

/// A curve that leaves and arrives level; a line where both ends are.
fn curve(path: &mut String, at: (f64, f64), end: (f64, f64)) {
    if (at.1 - end.1).abs() < 0.05 {
        let _ = write!(path, "H{}", short(end.0));
        return;
    }
    let middle = short((at.0 + end.0) / 2.0);
    let _ = write!(path, "C{middle} {} {middle} {} {} {}", short(at.1), short(end.1), short(end.0), short(end.1));
}

/// Half the width of a node at a height.
fn half_at(layers: &Layers, placing: &Placing, node: usize, height: f64) -> f64 {
    match layers.nodes[node].thing {
        Some(Thing::Condition(_)) => {
            let radius = if layers.nodes[node].ringed { RING } else { RADIUS };
            (radius * radius - (height - placing.y[node]).powi(2)).max(0.0).sqrt()
        }
        Some(Thing::Event(_)) => placing.half[layers.nodes[node].layer],
        None => placing.slot_half(layers.nodes[node].layer),
    }
}

fn left_of(layers: &Layers, placing: &Placing, node: usize, height: f64) -> (f64, f64) {
    (placing.x[node] - half_at(layers, placing, node, height), height)
}

fn right_of(layers: &Layers, placing: &Placing, node: usize, height: f64) -> (f64, f64) {
    (placing.x[node] + half_at(layers, placing, node, height), height)
}

/// A coordinate with one decimal at most.
pub fn short(value: f64) -> String {
    let text = format!("{:.1}", value + 0.0);
    let text = text.strip_suffix(".0").unwrap_or(&text);
    if text == "-0" { "0".to_string() } else { text.to_string() }
}

#[cfg(test)]
mod tests {
    use super::super::placing::Sizes;
    use super::super::{ordering, samples};
    use super::*;

    /// The points of a path: of a curve the end alone.
    fn points(path: &str) -> Vec<f64> {
        let mut points = Vec::new();
        for piece in path.replace(['C', 'H'], "|$0").replace("$0", "").split('|') {
            let numbers: Vec<f64> = piece.trim_start_matches('M').split(' ').map(|number| number.parse().unwrap()).collect();
            points.push(if numbers.len() == 6 { numbers[4] } else { numbers[0] });
        }
        points
    }

    #[test]
    fn every_path_goes_right() {
        for (name, run) in samples::all() {
            let mut layers = Layers::of(&run);
            ordering::reduce_crossings(&mut layers);
            let placing = Placing::of(&layers, Sizes { event: 80.0, label: 60.0 });
            let ports = ports(&layers, &placing);
            for edge in &layers.edges {
                let path = path(&layers, &placing, &ports, edge);
                let mut points = points(&path);
                if begins_right(edge) {
                    points.reverse();
                }
                assert!(points.windows(2).all(|pair| pair[0] < pair[1]), "{name}: {path}");
            }
        }
    }

    #[test]
    fn no_slot_runs_through_a_box_or_a_circle() {
        for (name, run) in samples::all() {
            let mut layers = Layers::of(&run);
            ordering::reduce_crossings(&mut layers);
            let placing = Placing::of(&layers, Sizes { event: 80.0, label: 60.0 });
            for nodes in &layers.order {
                let (slots, seen): (Vec<usize>, Vec<usize>) = nodes.iter().partition(|node| layers.is_slot(**node));
                let reach = |node: usize| if matches!(layers.nodes[node].thing, Some(Thing::Event(_))) { BOX_HEIGHT / 2.0 } else { RING };
                let clear = |slot: usize| seen.iter().all(|node| (placing.y[slot] - placing.y[*node]).abs() > reach(*node) + 4.0);
                assert!(slots.into_iter().all(clear), "{name}");
            }
        }
    }

    #[test]
    fn coordinates_are_short() {
        assert_eq!([short(1.0), short(1.25), short(-0.01), short(12.96)], ["1", "1.2", "0", "13"]);
    }
}
