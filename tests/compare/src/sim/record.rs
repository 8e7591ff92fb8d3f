//! Records: their text, and the refusals 31 to 34 of reading one.

use super::net::Net;
use super::text::{all_numbers, lines, words, Field, Words};
use super::{refuse, Refusal, CONDITIONS, EVENTS, MARKS};
use std::collections::HashSet;
use std::fmt::Write;

#[derive(Clone, Copy, Debug, PartialEq, Eq)]
pub enum Kind {
    /// `B`: the marked event is not later than the condition's producer.
    Before,
    /// `A`: the marked event is strictly after the condition's consumer.
    After,
    /// `R`: the marked event reads the condition: strictly after its producer, not later than its consumer.
    Read,
}

#[derive(Clone, Copy, Debug, PartialEq, Eq)]
pub struct Condition {
    pub place: usize,
    pub producer: Option<usize>,
    pub consumer: Option<usize>,
}

#[derive(Clone, Copy, Debug, PartialEq, Eq)]
pub struct Mark {
    pub kind: Kind,
    pub condition: usize,
    pub event: usize,
}

#[derive(Clone, Debug, Default)]
pub struct Record {
    /// The transition of each event.
    pub events: Vec<usize>,
    pub conditions: Vec<Condition>,
    pub marks: Vec<Mark>,
}

impl Record {
    pub fn text(&self) -> String {
        let mut text = String::new();
        for transition in &self.events {
            writeln!(text, "E,{transition}").unwrap();
        }
        for condition in &self.conditions {
            let (producer, consumer) = (end(condition.producer), end(condition.consumer));
            writeln!(text, "C,{},{producer},{consumer}", condition.place).unwrap();
        }
        for mark in &self.marks {
            let letter = match mark.kind {
                Kind::Before => 'B',
                Kind::After => 'A',
                Kind::Read => 'R',
            };
            writeln!(text, "{letter},{},{}", mark.condition, mark.event).unwrap();
        }
        text
    }
}

fn end(event: Option<usize>) -> String {
    event.map_or("-".to_string(), |event| event.to_string())
}

/// What one line says.
enum Item {
    Event(usize),
    Condition(Condition),
    Mark(Mark),
}

pub fn read(net: &Net, text: &[u8]) -> Result<Record, Refusal> {
    let mut reader = Reader::default();
    for line in lines(net.requests, text) {
        let number = match words(&line).and_then(|words| item(net, words)) {
            Some(item) => reader.take(net, item),
            None => 31,
        };
        if number != 0 {
            return refuse(number, line.number);
        }
    }
    Ok(reader.record)
}

fn item(net: &Net, words: Words) -> Option<Item> {
    match (words.letter, words.fields.as_slice()) {
        ('E', [Field::Number(transition)]) => Some(Item::Event(*transition)),
        ('C', [Field::Number(place), producer, consumer]) => {
            let (producer, consumer) = (event_of(*producer), event_of(*consumer));
            Some(Item::Condition(Condition { place: *place, producer, consumer }))
        }
        ('B', fields) => mark(Kind::Before, fields),
        ('A', fields) => mark(Kind::After, fields),
        ('R', fields) if net.requests.read_arcs => mark(Kind::Read, fields),
        _ => None,
    }
}

fn event_of(field: Field) -> Option<usize> {
    match field {
        Field::Number(event) => Some(event),
        Field::Dash => None,
    }
}

fn mark(kind: Kind, fields: &[Field]) -> Option<Item> {
    match all_numbers(fields)?.as_slice() {
        [condition, event] => Some(Item::Mark(Mark { kind, condition: *condition, event: *event })),
        _ => None,
    }
}

#[derive(Default)]
struct Reader {
    record: Record,
    /// The pairs of condition and event that a B or an A stands on, and those that an R stands on.
    marked: HashSet<(usize, usize)>,
    read: HashSet<(usize, usize)>,
}

impl Reader {
    /// Takes one line in; 0, or the number with which the line is refused.
    fn take(&mut self, net: &Net, item: Item) -> u64 {
        match item {
            Item::Event(transition) => self.event(net, transition),
            Item::Condition(condition) => self.condition(net, condition),
            Item::Mark(mark) => self.mark(mark),
        }
    }

    fn event(&mut self, net: &Net, transition: usize) -> u64 {
        let record = &mut self.record;
        if !record.conditions.is_empty() || !record.marks.is_empty() {
            return 31;
        }
        record.events.push(transition);
        if record.events.len() > EVENTS {
            return 32;
        }
        if transition >= net.transitions.len() { 33 } else { 0 }
    }

    fn condition(&mut self, net: &Net, condition: Condition) -> u64 {
        let record = &mut self.record;
        if !record.marks.is_empty() {
            return 31;
        }
        record.conditions.push(condition);
        if record.conditions.len() > CONDITIONS {
            return 32;
        }
        let mut ends = condition.producer.iter().chain(&condition.consumer);
        let undeclared = condition.place >= net.tokens.len() || ends.any(|event| *event >= record.events.len());
        if undeclared { 33 } else { 0 }
    }

    fn mark(&mut self, mark: Mark) -> u64 {
        let record = &mut self.record;
        record.marks.push(mark);
        if record.marks.len() > MARKS {
            return 32;
        }
        if mark.condition >= record.conditions.len() || mark.event >= record.events.len() {
            return 33;
        }
        let already = if mark.kind == Kind::Read { &mut self.read } else { &mut self.marked };
        if already.insert((mark.condition, mark.event)) { 0 } else { 34 }
    }
}
