//! Pictures of a run: an SVG with a layout of its own, and a text for Graphviz.
//!
//! The SVG is laid out in layers from left to right: a gap of conditions, the events of a line of the shortest arrangement, the
//! next gap, and so on. Every edge goes to the right, because the order of the record does.

mod dot;
mod label;
mod layers;
mod legend;
mod matrix;
mod ordering;
mod placing;
mod routes;
mod svg;
#[cfg(test)]
mod samples;

use crate::names::Names;
use crate::run::{MarkKind, Run};
use layers::Layers;
use placing::{Placing, Sizes};

/// The picture of a run as an SVG document.
pub fn svg(run: &Run, names: &Names) -> String {
    let mut layers = Layers::of(run);
    ordering::reduce_crossings(&mut layers);
    let sizes = Sizes { event: label::box_width(run, names), label: label::label_width(run, names) };
    let placing = Placing::of(&layers, sizes);
    svg::document(run, names, &layers, &placing, sizes.event)
}

/// The picture of a run as a text for Graphviz.
pub fn dot(run: &Run, names: &Names) -> String {
    dot::digraph(run, names)
}

/// What an edge stands for.
#[derive(Clone, Copy, Debug, PartialEq, Eq)]
enum Kind {
    /// An event produces or consumes a condition.
    Arc,
    Mark(MarkKind),
}

impl Kind {
    /// A letter of its own, for keys and classes.
    fn letter(self) -> char {
        match self {
            Kind::Arc => 'C',
            Kind::Mark(kind) => kind.letter(),
        }
    }
}

/// An event or a condition, by its number.
#[derive(Clone, Copy, Debug, PartialEq, Eq, Hash)]
enum Thing {
    Event(usize),
    Condition(usize),
}

/// As it is called in a picture: e2, c3.
impl std::fmt::Display for Thing {
    fn fmt(&self, out: &mut std::fmt::Formatter) -> std::fmt::Result {
        match self {
            Thing::Event(event) => write!(out, "e{event}"),
            Thing::Condition(condition) => write!(out, "c{condition}"),
        }
    }
}

/// Every arc and every mark of a record, from left to right.
fn edges(run: &Run) -> Vec<(Kind, Thing, Thing)> {
    let mut edges = Vec::new();
    for (number, condition) in run.record.conditions.iter().enumerate() {
        let this = Thing::Condition(number);
        edges.extend(condition.producer.map(|event| (Kind::Arc, Thing::Event(event), this)));
        edges.extend(condition.consumer.map(|event| (Kind::Arc, this, Thing::Event(event))));
    }
    edges.extend(run.record.marks.iter().map(|mark| {
        let (condition, event) = (Thing::Condition(mark.condition), Thing::Event(mark.event));
        match mark.kind {
            MarkKind::Before => (Kind::Mark(mark.kind), event, condition),
            MarkKind::After | MarkKind::Read => (Kind::Mark(mark.kind), condition, event),
        }
    }));
    edges
}

/// The events that are free to swap with an event.
fn partners(run: &Run, event: usize) -> Vec<usize> {
    (0..run.record.events.len()).filter(|other| run.order.independent(event, *other)).collect()
}
