//! What each thing in a picture means.

use super::{label, matrix};
use super::placing::{RADIUS, RING};
use super::routes::short;
use crate::relations;
use std::fmt::Write;

/// A row, and where its text begins.
const ROW: f64 = 24.0;
const TEXT: f64 = 56.0;

/// Something that is drawn, from (0, 0) to the right and down.
pub struct Block {
    pub text: String,
    pub width: f64,
    pub height: f64,
}

/// What is drawn around the point (22, 0), and what it means.
fn picture_rows() -> Vec<(String, String)> {
    let shape = |extra: &str| format!(r##"{extra}<circle class="place" cx="22" cy="0" r="{}"/>"##, RADIUS - 5.0);
    let edge = |class: &str, path: &str| format!(r##"<path class="{class}" d="{path}"/>"##);
    let rows = [
        (boxed(""), "event: its number and its transition; ordered with all others"),
        (boxed(" free"), "event that is free to swap with those behind ∥"),
        (shape(""), "condition: a token, by its number and its place"),
        (shape("") + r##"<circle class="token" cx="22" cy="0" r="3"/>"##, "initial condition: no event produced it"),
        (shape(&format!(r##"<circle class="ring" cx="22" cy="0" r="{}"/>"##, RING - 6.0)), "condition that nobody consumed"),
        (edge("key C", "M2 0H44"), "an event produces a condition, or consumes it"),
        (edge("key A", "M2 0H44"), "A: the event is after the condition was consumed"),
        (edge("key B", "M44 0H2"), "B: the event is not later than the condition's producer"),
        (edge("key R", "M2 0H44"), "R: the event has read the condition"),
    ];
    rows.map(|(shape, meaning)| (shape, meaning.to_string())).into()
}

fn boxed(class: &str) -> String {
    format!(r##"<rect class="box{class}" x="4" y="-9" width="36" height="18" rx="3"/>"##)
}

fn matrix_rows() -> Vec<(String, String)> {
    let cell = |colour: &str| format!(r##"<rect x="14" y="-8" width="16" height="16" fill="{colour}" stroke="#999" stroke-width=".5"/>"##);
    relations::ALL.iter().map(|(relation, sign, meaning)| (cell(matrix::colour(*relation)), format!("{sign} {meaning}"))).collect()
}

/// What the things of a picture mean.
pub fn of_picture() -> Block {
    drawn("The picture", &picture_rows())
}

/// What the colours of the matrix mean.
pub fn of_matrix() -> Block {
    drawn("The matrix", &matrix_rows())
}

fn drawn(caption: &str, rows: &[(String, String)]) -> Block {
    let mut text = format!("<text class=\"caption\" x=\"0\" y=\"12\">{caption}</text>\n");
    let mut width = 0.0_f64;
    for (row, (shape, meaning)) in rows.iter().enumerate() {
        let y = ROW * (row as f64 + 1.0) + 8.0;
        let _ = writeln!(text, r##"<g transform="translate(0 {})">{shape}</g>"##, short(y));
        let _ = writeln!(text, r##"<text class="said" x="{TEXT}" y="{}">{}</text>"##, short(y + 4.0), label::escape(meaning));
        width = width.max(TEXT + label::width(meaning, 11.5));
    }
    Block { text, width, height: ROW * (rows.len() + 1) as f64 }
}
