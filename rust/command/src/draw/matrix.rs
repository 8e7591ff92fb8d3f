//! The order of all events at a glance: a row and a column for each event, and a cell for each pair.

use super::label;
use super::legend::Block;
use super::routes::short;
use crate::relations;
use pti::{Order, Relation};
use std::fmt::Write;

/// The colour of a relation of the row's event to the column's. Independent is the strong one; that the row's event comes first
/// is darker than that it comes second, so that small cells show it too.
pub fn colour(relation: Relation) -> &'static str {
    match relation {
        Relation::Independent => "#f2a900",
        Relation::StrictlyBefore => "#dbe1e9",
        Relation::StrictlyAfter => "#f2f4f7",
        Relation::NotLater => "#8faccd",
        Relation::NotEarlier => "#c3d3e6",
        Relation::Together => "#44546a",
    }
}

const CAPTION: &str = "Order of events: row to column";
/// Where the cells begin: below the caption and the numbers of the columns, and behind those of the rows.
const TOP: f64 = 44.0;
const LEFT: f64 = 26.0;
/// A cell of this size has room for a sign.
const ROOMY: f64 = 18.0;

/// The matrix of an order.
pub fn drawn(order: &Order) -> Block {
    let events = order.events();
    let cell = cell_size(events);
    let side = cell * events as f64;
    let mut text = format!("<text class=\"caption\" x=\"0\" y=\"12\">{CAPTION}</text>\n");
    for (relation, ..) in relations::ALL {
        let path = cells(order, cell, relation);
        if !path.is_empty() {
            let _ = writeln!(text, r##"<path fill="{}" d="{path}"/>"##, colour(relation));
        }
    }
    numbers(&mut text, events, cell);
    if cell >= ROOMY {
        signs(&mut text, order, cell);
    }
    let _ = writeln!(text, r##"<rect x="{LEFT}" y="{TOP}" width="{0}" height="{0}" fill="none" stroke="#999" stroke-width=".7"/>"##, short(side));
    Block { text, width: (LEFT + side).max(label::width(CAPTION, 12.0) * 1.1), height: TOP + side }
}

fn cell_size(events: usize) -> f64 {
    match events {
        0..=12 => 22.0,
        13..=24 => ROOMY,
        25..=64 => 12.0,
        _ => 9.0,
    }
}

/// The cells of one relation as one path, each a little apart from the next. So many elements would be too many.
fn cells(order: &Order, cell: f64, wanted: Relation) -> String {
    let mut path = String::new();
    let events = order.events();
    let is = |row: usize, column: usize| order.relation(row, column) == Some(wanted);
    for row in 0..events {
        for column in (0..events).filter(|column| is(row, *column)) {
            let (x, y, size) = (LEFT + cell * column as f64 + 0.5, TOP + cell * row as f64 + 0.5, short(cell - 1.0));
            let _ = write!(path, "M{} {}h{size}v{size}h-{size}z", short(x), short(y));
        }
    }
    path
}

/// The numbers of the events, at the left and at the top.
fn numbers(text: &mut String, events: usize, cell: f64) {
    let font = if cell < 12.0 { 7.5 } else { 10.0 };
    for event in 0..events {
        let middle = cell * (event as f64 + 0.5);
        let (x, y) = (short(LEFT - 4.0), short(TOP + middle + font * 0.36));
        let _ = writeln!(text, r##"<text class="side" font-size="{font}" x="{x}" y="{y}" text-anchor="end">{event}</text>"##);
        let (x, y) = (short(LEFT + middle + font * 0.36), short(TOP - 4.0));
        let _ = writeln!(text, r##"<text class="side" font-size="{font}" transform="translate({x} {y}) rotate(-90)">{event}</text>"##);
    }
}

/// A sign in each cell.
fn signs(text: &mut String, order: &Order, cell: f64) {
    let pairs = (0..order.events()).flat_map(|row| (0..order.events()).map(move |column| (row, column)));
    for (row, column) in pairs {
        if let Some(relation) = order.relation(row, column) {
            let (x, y) = (short(LEFT + cell * (column as f64 + 0.5)), short(TOP + cell * (row as f64 + 0.5) + 4.0));
            let light = if relation == Relation::Together { r##" style="fill:#fff""## } else { "" };
            let _ = writeln!(text, r##"<text class="cell"{light} x="{x}" y="{y}">{}</text>"##, label::escape(&relations::sign(relation).to_string()));
        }
    }
}

#[cfg(test)]
mod tests {
    use super::super::samples;
    use super::*;

    #[test]
    fn every_pair_has_one_cell() {
        for (name, run) in samples::all() {
            let events = run.order.events();
            let all: usize = relations::ALL.iter().map(|known| cells(&run.order, 9.0, known.0).matches('M').count()).sum();
            assert_eq!(all, events * events.saturating_sub(1), "{name}");
            assert_eq!(cells(&run.order, 9.0, Relation::Independent).matches('M').count(), 2 * run.order.independent_pairs(), "{name}");
        }
    }

    #[test]
    fn signs_say_the_relation() {
        let text = drawn(&samples::example("temperature", "flush").order).text;
        assert_eq!([">∥<", ">≤<", ">≥<", ">=<"].map(|sign| text.matches(sign).count()), [8, 1, 1, 0]);
        let text = drawn(&samples::example("crossed", "together").order).text;
        assert_eq!(text.matches(">=<").count(), 2);
    }
}
