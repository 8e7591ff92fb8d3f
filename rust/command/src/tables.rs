//! What is printed as a table, for a person.

use crate::names::Names;
use crate::relations;
use crate::run::{Net, Record};
use pti::{Markings, Order};
use std::fmt::Write;

/// A number with its name, if it has one.
fn label(number: usize, name: Option<&str>) -> String {
    name.map_or(number.to_string(), |name| format!("{number} {name}"))
}

/// The places with their tokens, and the transitions with their arcs.
pub fn net(net: &Net, names: &Names) -> String {
    let mut table = String::new();
    for (place, tokens) in net.tokens.iter().enumerate() {
        let _ = writeln!(table, "place {}: tokens {tokens}", label(place, names.place(place)));
    }
    let place = |place: &usize| label(*place, names.place(*place));
    let weighted = |(number, weight): &(usize, usize)| if *weight == 1 { place(number) } else { format!("{} ({weight} tokens)", place(number)) };
    for (number, transition) in net.transitions.iter().enumerate() {
        let kinds = [
            ("takes", transition.takes.iter().map(weighted).collect::<Vec<String>>()),
            ("makes", transition.makes.iter().map(weighted).collect()),
            ("inhibited by", transition.inhibitors.iter().map(place).collect()),
            ("reads", transition.reads.iter().map(place).collect()),
        ];
        let arcs: Vec<String> = kinds.iter().filter(|(_, places)| !places.is_empty()).map(|(kind, places)| format!("{kind} {}", places.join(", "))).collect();
        let _ = writeln!(table, "transition {}: {}", label(number, names.transition(number)), arcs.join("; "));
    }
    table
}

/// What the signs of the matrix mean, two on a line.
fn signs() -> String {
    let mut said = String::from("the event of the row and that of the column:\n");
    for two in relations::ALL.chunks(2) {
        let [left, right] = [0, 1].map(|side| format!("{}  {}", two[side].1, two[side].2));
        let _ = writeln!(said, "{left:<20}{right}");
    }
    said
}

/// The order as a matrix: a row and a column for each event.
pub fn order(order: &Order, record: &Record, names: &Names) -> String {
    let labels: Vec<String> = record.events.iter().enumerate().map(|(event, transition)| label(event, names.transition(*transition))).collect();
    let width = labels.iter().map(|label| label.chars().count()).max().unwrap_or(0);
    let mut table = format!("\n{}", heads(order.events(), width));
    for (e, label) in labels.iter().enumerate() {
        let signs: String = (0..order.events()).flat_map(|f| [' ', order.relation(e, f).map_or('\\', relations::sign)]).collect();
        let _ = writeln!(table, "{label:<width$} {signs}");
    }
    table + "\n" + &signs()
}

/// The numbers of the columns, a digit below the other.
fn heads(events: usize, width: usize) -> String {
    let digits = (events - 1).to_string().len();
    let mut heads = String::new();
    for digit in 0..digits {
        let row: String = (0..events).flat_map(|f| [' ', format!("{f:>digits$}").chars().nth(digit).unwrap_or(' ')]).collect();
        let _ = writeln!(heads, "{}", format!("{:width$} {row}", "").trim_end());
    }
    heads
}

/// The marking before the first line and after each, and the line.
pub fn markings(markings: &Markings, lines: &[Vec<usize>], record: &Record, names: &Names) -> String {
    let places = markings.after(0).len();
    let widths: Vec<usize> = (0..places).map(|p| markings.iter().map(|row| row[p].to_string().len()).chain([p.to_string().len()]).max().unwrap_or(1)).collect();
    let numbers = |row: Vec<String>| -> String { row.iter().zip(&widths).map(|(number, width)| format!(" {number:>width$}")).collect() };
    let mut table = format!("line {}\n", numbers((0..places).map(|p| p.to_string()).collect()));
    for (after, row) in markings.iter().enumerate() {
        let counts = numbers(row.iter().map(u16::to_string).collect());
        let played = after.checked_sub(1).map_or(String::new(), |line| step(&lines[line], record, names));
        let _ = writeln!(table, "{}", format!("{after:>4} {counts}  {played}").trim_end());
    }
    let named: Vec<String> = (0..places).filter(|p| names.place(*p).is_some()).map(|p| label(p, names.place(p))).collect();
    if !named.is_empty() {
        let _ = writeln!(table, "\nplaces: {}", named.join(", "));
    }
    table
}

/// A line of an arrangement, with the names of its events' transitions.
fn step(events: &[usize], record: &Record, names: &Names) -> String {
    let line: String = events.iter().map(|event| format!(",{event}")).collect();
    let named: Vec<&str> = events.iter().filter_map(|event| names.transition(record.events[*event])).collect();
    if named.is_empty() { format!("G{line}") } else { format!("G{line}  {}", named.join(", ")) }
}
