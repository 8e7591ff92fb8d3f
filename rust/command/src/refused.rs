//! A refusal as a person wants to read it: the file, the line, the line itself and what is wrong.

use crate::json::Json;
use crate::request::Request;
use crate::run::{arranged, Record};
use crate::texts::{shown, Source};
use pti::{Choice, Refusal, Spot, Text};

/// So many bytes of a long line are shown.
const SHOWN_BYTES: usize = 200;

/// A refusal, and the line of a file that it is about.
pub struct Report<'a> {
    refusal: Refusal,
    /// The text that was refused.
    source: &'a Source,
    /// The line at which it was, if at one.
    line: Option<usize>,
    /// What has the spot, where it is no line.
    thing: Option<String>,
    /// Where that thing is declared: often in another text than the one refused.
    declared: Option<(&'a Source, usize)>,
}

/// What the command calls a text.
fn operand(text: Text) -> &'static str {
    match text {
        Text::Net => "NET",
        Text::Log => "LOG",
        Text::Record => "RECORD",
        Text::Arrangement => "ARRANGEMENT",
        Text::Energy => "ENERGY",
    }
}

pub fn report(refusal: Refusal, request: &Request) -> Report<'_> {
    let last = request.texts.last().expect("every command has a text");
    let of = |text| request.source(operand(text)).unwrap_or(last);
    let mut report = Report { refusal, source: last, line: None, thing: None, declared: None };
    match refusal.spot() {
        Spot::Whole => (),
        Spot::Line(text, line) => {
            report.source = of(text);
            report.line = Some(line);
        }
        Spot::Asked(line) => report.thing = Some(format!("line {line}")),
        Spot::Transition(transition) => {
            report.source = of(Text::Net);
            report.thing = Some(named("transition", transition, request.names.transition(transition)));
            report.declared = declared(of(Text::Net), b'T', transition);
        }
        Spot::Place(place) => {
            report.source = of(Text::Record);
            report.thing = Some(named("place", place, request.names.place(place)));
            report.declared = declared(of(Text::Net), b'P', place);
        }
        Spot::Event(event) => {
            // An event that is missing is the arrangement's fault, any other the record's.
            report.source = if matches!(refusal, Refusal::EventMissing(_)) { of(Text::Arrangement) } else { of(Text::Record) };
            report.thing = Some(named("event", event, name_of_event(request, event)));
            report.declared = declared(of(Text::Record), b'E', event);
        }
    }
    report
}

fn named(kind: &str, number: usize, name: Option<&str>) -> String {
    match name {
        Some(name) => format!("{kind} {number} ({name})"),
        None => format!("{kind} {number}"),
    }
}

/// The name of an event's transition, in a record that is in form.
fn name_of_event(request: &Request, event: usize) -> Option<&str> {
    let record = Record::of(request.text("RECORD"));
    record.events.get(event).and_then(|transition| request.names.transition(*transition))
}

/// The line that declares the thing of that number: the net and the record number their things as they appear.
fn declared(source: &Source, letter: u8, number: usize) -> Option<(&Source, usize)> {
    let lines = source.bytes.split(|byte| *byte == b'\n').enumerate();
    lines.filter(|(_, line)| line.first() == Some(&letter)).nth(number).map(|(index, _)| (source, index + 1))
}

/// A line of a text as it is shown.
struct Line {
    text: String,
    /// It is longer than what is shown.
    longer: bool,
    /// It has no ending: the text was cut off in it.
    cut_off: bool,
}

impl Line {
    /// None if there is no such line.
    fn of(source: &Source, line: usize) -> Option<Line> {
        let stretch = pti::refused_line(&source.bytes, b"", Choice::Net, line).ok()?;
        let bytes = &source.bytes[stretch.clone()];
        let text = shown(&bytes[..bytes.len().min(SHOWN_BYTES)]);
        Some(Line { text, longer: bytes.len() > SHOWN_BYTES, cut_off: stretch.end == source.bytes.len() })
    }

    fn words(&self) -> String {
        let longer = if self.longer { " (and so on)" } else { "" };
        let cut_off = if self.cut_off { " (cut off: no line end)" } else { "" };
        format!("{}{longer}{cut_off}", self.text)
    }
}

impl Report<'_> {
    /// The line of the refused text that is meant.
    fn at(&self) -> Option<usize> {
        self.line.or_else(|| self.declared.filter(|(source, _)| std::ptr::eq(*source, self.source)).map(|(_, line)| line))
    }

    /// The line that the refusal is about.
    fn about(&self) -> Option<Line> {
        match (self.line, self.declared) {
            (Some(line), _) => Line::of(self.source, line),
            (None, Some((source, line))) => Line::of(source, line),
            _ => None,
        }
    }

    /// `FILE:LINE: refused, NUMBER: SENTENCE`, and below it the line.
    pub fn words(&self, request: &Request) -> String {
        let at = self.at().map_or(String::new(), |line| format!(":{line}"));
        let mut words = format!("{}{at}: refused, {}: {}\n", self.source.file, self.refusal.number(), self.refusal.sentence());
        let elsewhere = match self.declared {
            Some((source, line)) if self.at().is_none() => format!(", {}:{line}", source.file),
            _ => String::new(),
        };
        match (&self.thing, self.about().map(|line| line.words())) {
            (Some(thing), Some(text)) => words.push_str(&format!("    {thing}{elsewhere}: {text}\n")),
            (Some(thing), None) => words.push_str(&format!("    {thing}\n")),
            (None, Some(text)) => words.push_str(&format!("    {text}{}\n", self.step_names(request))),
            (None, None) => (),
        }
        words
    }

    /// The names of the transitions of a log's line that is in form and knows its transitions.
    fn step_names(&self, request: &Request) -> String {
        let (Refusal::TooManyEvents(line) | Refusal::TooFewTokens(line) | Refusal::Inhibited(line)) = self.refusal else {
            return String::new();
        };
        let step = pti::refused_line(&self.source.bytes, b"", Choice::Net, line).map(|stretch| arranged(&self.source.bytes[stretch]));
        let step = step.ok().and_then(|mut steps| steps.pop()).unwrap_or_default();
        let names: Vec<&str> = step.iter().filter_map(|transition| request.names.transition(*transition)).collect();
        if names.is_empty() || names.len() > 8 { String::new() } else { format!(" ({})", names.join(", ")) }
    }

    pub fn json(&self) -> Json {
        let (kind, spot) = match self.refusal.spot() {
            Spot::Whole => ("whole", 0),
            Spot::Line(_, line) => ("line", line),
            Spot::Transition(transition) => ("transition", transition),
            Spot::Place(place) => ("place", place),
            Spot::Event(event) => ("event", event),
            Spot::Asked(line) => ("asked", line),
        };
        let about = self.about();
        Json::Object(vec![
            ("accepted", Json::Bool(false)),
            ("number", Json::Count(self.refusal.number() as usize)),
            ("sentence", Json::text(self.refusal.sentence())),
            ("spot_kind", Json::text(kind)),
            ("spot", Json::Count(spot)),
            ("file", Json::text(&self.source.file)),
            ("line", self.at().into()),
            ("text", about.as_ref().map(|line| line.text.as_str()).into()),
            ("cut_off", Json::Bool(about.is_some_and(|line| line.cut_off))),
        ])
    }
}
