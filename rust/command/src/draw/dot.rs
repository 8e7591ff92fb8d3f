//! A run as a text for Graphviz.

use super::{edges, label, partners, Kind};
use crate::names::Names;
use crate::run::{MarkKind, Run};
use std::fmt::Write;

/// A line of a condition's name is not longer than this, unless a word is.
const LONGEST_LINE: usize = 12;

/// The run as a directed graph, from left to right, with the events of a line at one height.
pub fn digraph(run: &Run, names: &Names) -> String {
    let mut out = String::from("digraph run {\n  rankdir=LR;\n");
    out.push_str("  node [fontname=\"DejaVu Sans\", fontsize=11];\n  edge [fontname=\"DejaVu Sans\", fontsize=9];\n");
    for event in 0..run.record.events.len() {
        events_node(&mut out, run, names, event);
    }
    for number in 0..run.record.conditions.len() {
        conditions_node(&mut out, run, names, number);
    }
    for (line, events) in run.lines.iter().enumerate() {
        lines_rank(&mut out, line + 1, events);
    }
    for (kind, from, to) in edges(run) {
        let _ = writeln!(out, "  {from} -> {to}{};", look(kind));
    }
    out.push_str("}\n");
    out
}

/// A line has its number as a node of its own. These hold the lines in their order, also where no edge does.
fn lines_rank(out: &mut String, line: usize, events: &[usize]) {
    let members: Vec<String> = events.iter().map(|event| format!("e{event};")).collect();
    let _ = writeln!(out, "  line{line} [shape=plaintext, label=\"line {line}\"];");
    let _ = writeln!(out, "  subgraph rank{line} {{ rank=same; line{line}; {} }}", members.join(" "));
    if line > 1 {
        let _ = writeln!(out, "  line{} -> line{line} [style=invis, minlen=2];", line - 1);
    }
}

fn events_node(out: &mut String, run: &Run, names: &Names, event: usize) {
    let name = quoted(&label::transition(names, run.record.events[event]));
    let partners = partners(run, event);
    let (swaps, fill) = match partners.len() {
        0 => (String::new(), ""),
        1..=6 => (format!("\\n∥ {}", label::listed(&partners)), ", style=filled, fillcolor=\"#ffe08a\""),
        many => (format!("\\n∥ {many} events"), ", style=filled, fillcolor=\"#ffe08a\""),
    };
    let _ = writeln!(out, "  e{event} [shape=box{fill}, label=\"{event} {name}{swaps}\"];");
}

fn conditions_node(out: &mut String, run: &Run, names: &Names, number: usize) {
    let condition = &run.record.conditions[number];
    let name = wrapped(&label::place(names, condition.place));
    let token = if condition.producer.is_none() { "●\\n" } else { "" };
    let rings = if condition.consumer.is_none() { 2 } else { 1 };
    let _ = writeln!(out, "  c{number} [shape=circle, peripheries={rings}, margin=0, fontsize=9, label=\"{token}{number}\\n{name}\"];");
}

/// How an edge looks.
fn look(kind: Kind) -> &'static str {
    match kind {
        Kind::Arc => "",
        Kind::Mark(MarkKind::After) => " [style=dashed, color=\"#d55e00\", fontcolor=\"#d55e00\", label=\"A\"]",
        Kind::Mark(MarkKind::Before) => " [style=dotted, color=\"#0072b2\", fontcolor=\"#0072b2\", label=\"B\"]",
        Kind::Mark(MarkKind::Read) => " [style=\"dashed,bold\", color=\"#009e73\", fontcolor=\"#009e73\", label=\"R\"]",
    }
}

/// A name inside a quoted string.
fn quoted(name: &str) -> String {
    name.replace('\\', "\\\\").replace('"', "\\\"")
}

/// A name inside a quoted string, its words on lines that are not long: a circle is as wide as the longest.
fn wrapped(name: &str) -> String {
    let mut lines: Vec<String> = Vec::new();
    for word in name.split_whitespace() {
        match lines.last_mut().filter(|line| line.chars().count() + 1 + word.chars().count() <= LONGEST_LINE) {
            Some(line) => line.extend([" ", word]),
            None => lines.push(word.to_string()),
        }
    }
    lines.iter().map(|line| quoted(line)).collect::<Vec<_>>().join("\\n")
}

#[cfg(test)]
mod tests {
    use super::super::samples;
    use super::*;

    fn lines_with(text: &str, part: &str) -> usize {
        text.lines().filter(|line| line.contains(part)).count()
    }

    #[test]
    fn everything_is_in_the_graph_once() {
        for (name, run) in samples::all() {
            let text = digraph(&run, &Names::default());
            assert_eq!(lines_with(&text, "[shape=box"), run.record.events.len(), "{name}");
            assert_eq!(lines_with(&text, "[shape=circle"), run.record.conditions.len(), "{name}");
            assert_eq!(lines_with(&text, "rank=same"), run.lines.len(), "{name}");
            for (letter, kind) in [('A', MarkKind::After), ('B', MarkKind::Before), ('R', MarkKind::Read)] {
                let marks = run.record.marks.iter().filter(|mark| mark.kind == kind).count();
                assert_eq!(lines_with(&text, &format!("label=\"{letter}\"]")), marks, "{name}");
            }
            let drawn = text.lines().filter(|line| line.starts_with("  e") || line.starts_with("  c")).filter(|line| line.contains(" -> "));
            assert_eq!(drawn.count(), edges(&run).len(), "{name}");
        }
    }

    #[test]
    fn names_are_quoted() {
        assert_eq!(quoted(r#"a "b" \c"#), r#"a \"b\" \\c"#);
        assert_eq!(wrapped("write on the media"), "write on the\\nmedia");
        assert_eq!(wrapped(r#"a"b"#), r#"a\"b"#);
        let names = Names::of(b"T,0,\"x\\\n").unwrap();
        let text = digraph(&samples::example("drive", "a"), &names);
        assert!(text.contains(r#"label="0 \"x\\"];"#), "{text}");
    }
}
