//! One call of one operation: what goes in, how it is run on a subject, and what comes out, every lent byte included.

use crate::answer::Answer;
use crate::sim::{Requests, ARRANGEMENT_ROOM, PROGRAM_ROOM, RECORD_ROOM, ROWS_ROOM, TABLE_ROOM};
use std::sync::OnceLock;

/// What has the operations: the library, or the simulator.
pub trait Subject {
    fn name(&self) -> &'static str;
    fn read_net(&self, net: &[u8]) -> Answer;
    fn build(&self, net: &[u8], log: &[u8], out: &mut [u8]) -> Answer;
    fn check(&self, net: &[u8], record: &[u8], table: &mut [u8]) -> Answer;
    fn replay(&self, net: &[u8], record: &[u8], arrangement: &[u8], rows: &mut [u16]) -> Answer;
    fn arrange(&self, net: &[u8], record: &[u8], out: &mut [u8]) -> Answer;
    /// The answer's a, b and c are the bits of its three f64.
    fn energy(&self, net: &[u8], record: &[u8], energy: &[u8]) -> Answer;
    fn refused_line(&self, net: &[u8], second: &[u8], choice: u8, line: u64) -> Answer;
    fn program(&self, input: &[u8], out: &mut [u8; PROGRAM_ROOM]) -> Answer;
}

#[derive(Clone, Copy, Debug, PartialEq, Eq, PartialOrd, Ord)]
pub enum Operation {
    ReadNet,
    Build,
    Check,
    Replay,
    Arrange,
    Energy,
    RefusedLine,
    Program,
}

impl Operation {
    pub const ALL: [Operation; 8] = [
        Operation::ReadNet,
        Operation::Build,
        Operation::Check,
        Operation::Replay,
        Operation::Arrange,
        Operation::Energy,
        Operation::RefusedLine,
        Operation::Program,
    ];

    pub fn name(self) -> &'static str {
        ["read_net", "build", "check", "replay", "arrange", "energy", "refused_line", "program"][self as usize]
    }

    /// The texts it takes, in their order.
    pub fn text_names(self) -> &'static [&'static str] {
        match self {
            Operation::ReadNet => &["net"],
            Operation::Build => &["net", "log"],
            Operation::Check | Operation::Arrange => &["net", "record"],
            Operation::Replay => &["net", "record", "arrangement"],
            Operation::Energy => &["net", "record", "energy"],
            Operation::RefusedLine => &["net", "second"],
            Operation::Program => &["input"],
        }
    }

    /// Whether a buffer of any size can be lent to it: the program's has its one size.
    pub fn any_room(self) -> bool {
        self.stated_room() != 0 && self != Operation::Program
    }

    /// The size at which its lent buffer is no longer too short.
    pub fn stated_room(self) -> usize {
        match self {
            Operation::ReadNet | Operation::Energy | Operation::RefusedLine => 0,
            Operation::Build => RECORD_ROOM,
            Operation::Check => TABLE_ROOM,
            Operation::Replay => ROWS_ROOM,
            Operation::Arrange => ARRANGEMENT_ROOM,
            Operation::Program => PROGRAM_ROOM,
        }
    }

    /// Every refusal that documents 01 and 02 list for it.
    pub fn refusals(self) -> Vec<u64> {
        let net = (11..=15).chain([51, 54]);
        let record = 31..=39;
        match self {
            Operation::ReadNet => net.collect(),
            Operation::Build => net.chain(20..=27).collect(),
            Operation::Check => net.chain(30..=39).collect(),
            Operation::Replay => net.chain(record).chain(40..=45).collect(),
            Operation::Arrange => net.chain(record).chain([50]).collect(),
            Operation::Energy => net.chain(record).chain([52, 53]).collect(),
            Operation::RefusedLine => vec![46],
            Operation::Program => net.chain([10]).chain(21..=27).collect(),
        }
    }
}

#[derive(Clone, Debug, PartialEq, Eq)]
pub struct Case {
    pub operation: Operation,
    /// As many as `text_names` has.
    pub texts: Vec<Vec<u8>>,
    /// Length of the lent buffer, in bytes, or in counts for replay.
    pub room: usize,
    /// Choice and line number of the refused line; unused elsewhere.
    pub choice: u8,
    pub line: u64,
}

impl Case {
    /// Does no text make use of a request of document 02 but these? Then the answer is what it is with these alone. 2026-04 is one
    /// of them wherever this is asked: it adds nothing to the texts.
    pub fn within(&self, requests: Requests) -> bool {
        let reads = |text: &[u8]| text.split(|byte| *byte == 10).any(|line| line.starts_with(b"R"));
        let returns = |text: &[u8]| text.windows(2).any(|two| two == b"\r\n");
        self.texts.iter().all(|text| {
            (requests.read_arcs || !reads(text)) && (requests.carriage_returns || !returns(text)) && (requests.weights || !text.split(|byte| *byte == 10).any(weighted))
        })
    }

    /// Has the net a line with a weight? Of the program's input every line is looked at: no line of a log begins like that.
    pub fn has_weights(&self) -> bool {
        self.texts[0].split(|byte| *byte == 10).any(weighted)
    }

    /// With a buffer of the stated size.
    pub fn new(operation: Operation, texts: &[&[u8]]) -> Case {
        assert_eq!(texts.len(), operation.text_names().len());
        let texts = texts.iter().map(|text| text.to_vec()).collect();
        Case { operation, texts, room: operation.stated_room(), choice: 0, line: 0 }
    }

    pub fn with_room(mut self, room: usize) -> Case {
        self.room = room;
        self
    }

    pub fn asking(mut self, choice: u8, line: u64) -> Case {
        self.choice = choice;
        self.line = line;
        self
    }
}

/// Is the line one of an input or an output arc, with more behind its ends?
fn weighted(line: &[u8]) -> bool {
    (line.starts_with(b"I,") || line.starts_with(b"O,")) && line.iter().filter(|byte| **byte == b',').count() > 2
}

/// The answer and all lent memory after the call, with the guards around it.
#[derive(Clone, Debug, PartialEq, Eq)]
pub struct Outcome {
    pub operation: Operation,
    pub answer: Answer,
    pub bytes: Vec<u8>,
    pub counts: Vec<u16>,
    /// Were the texts, which are lent to be read only, left alone?
    pub texts_unchanged: bool,
}

impl Outcome {
    /// The answer; of floats their values too, since an answer has their bits.
    fn words(&self) -> String {
        let Answer { number, spot, a, b, c } = self.answer;
        match self.operation {
            Operation::Energy => format!("{number}, {spot} with {:?} ({a:016X} {b:016X} {c:016X})", [a, b, c].map(f64::from_bits)),
            _ => format!("{:?}", self.answer),
        }
    }

    /// The answer's number and spot; of the program, which answers 0 when it prints a refusal, those of the `X` line.
    pub fn refusal(&self) -> (u64, u64) {
        let printed = self.bytes.get(GUARD..).and_then(|lent| lent.strip_prefix(b"X,")).unwrap_or_default();
        let mut words = printed.split(|byte| !byte.is_ascii_digit()).map(|digits| {
            digits.iter().fold(0, |number: u64, digit| number.wrapping_mul(10).wrapping_add(u64::from(digit - b'0')))
        });
        let mut word = || words.next().unwrap_or(0);
        (self.answer.number.wrapping_add(word()), self.answer.spot.wrapping_add(word()))
    }
}

/// Cells before and behind the lent part, in which a write past its ends shows.
pub const GUARD: usize = 64;

/// What a lent buffer holds before the call: bytes that no operation writes, so that every write shows.
fn old_byte(index: usize) -> u8 {
    0x80 | (index * 37 % 128) as u8
}

/// The same for rows: greater than any count of tokens.
fn old_count(index: usize) -> u16 {
    0xC000 | (index * 37 % 0x4000) as u16
}

/// Made once, since every case copies a part of it.
fn old_bytes(length: usize) -> Vec<u8> {
    static MADE: OnceLock<Vec<u8>> = OnceLock::new();
    let made = MADE.get_or_init(|| (0..LONGEST).map(old_byte).collect());
    made[..length].to_vec()
}

fn old_counts(length: usize) -> Vec<u16> {
    static MADE: OnceLock<Vec<u16>> = OnceLock::new();
    let made = MADE.get_or_init(|| (0..LONGEST).map(old_count).collect());
    made[..length].to_vec()
}

/// Longer than any buffer that a case lends.
const LONGEST: usize = 1 << 17;

/// A lent buffer and its guards before the call.
pub fn fresh(case: &Case) -> (Vec<u8>, Vec<u16>) {
    match case.operation {
        Operation::Replay => (Vec::new(), old_counts(case.room + 2 * GUARD)),
        _ => (old_bytes(case.room + 2 * GUARD), Vec::new()),
    }
}

/// The lent part of a buffer with guards.
pub fn lent<T>(held: &mut [T]) -> &mut [T] {
    let end = held.len().saturating_sub(GUARD);
    &mut held[GUARD.min(end)..end]
}

/// What stands in memory behind a lent text. A reader that goes past the end would take it for a part of the text:
/// a cut line would be ended, and more lines would follow.
const BEHIND: &[u8] = b"0\nT\nS,0\nE,0\nG,0\n=\n";

/// Behind a 13 or a `=` stands byte 10 at once, which would make a line end or the program's line of it.
fn lend(text: &[u8]) -> Vec<u8> {
    let behind = if matches!(text.last(), Some(13 | b'=')) { &BEHIND[1..] } else { BEHIND };
    [text, behind].concat()
}

/// The program's buffer has one size.
pub fn whole(out: &mut [u8]) -> &mut [u8; PROGRAM_ROOM] {
    out.try_into().expect("a buffer of the program's size")
}

fn call(subject: &dyn Subject, case: &Case, texts: &[&[u8]], out: &mut [u8], rows: &mut [u16]) -> Answer {
    match case.operation {
        Operation::ReadNet => subject.read_net(texts[0]),
        Operation::Build => subject.build(texts[0], texts[1], out),
        Operation::Check => subject.check(texts[0], texts[1], out),
        Operation::Replay => subject.replay(texts[0], texts[1], texts[2], rows),
        Operation::Arrange => subject.arrange(texts[0], texts[1], out),
        Operation::Energy => subject.energy(texts[0], texts[1], texts[2]),
        Operation::RefusedLine => subject.refused_line(texts[0], texts[1], case.choice, case.line),
        Operation::Program => subject.program(texts[0], whole(out)),
    }
}

pub fn run(subject: &dyn Subject, case: &Case) -> Outcome {
    let held: Vec<Vec<u8>> = case.texts.iter().map(|text| lend(text)).collect();
    let texts: Vec<&[u8]> = held.iter().zip(&case.texts).map(|(held, text)| &held[..text.len()]).collect();
    let (mut bytes, mut counts) = fresh(case);
    let answer = call(subject, case, &texts, lent(&mut bytes), lent(&mut counts));
    let texts_unchanged = case.texts.iter().zip(&held).all(|(text, held)| *held == lend(text));
    Outcome { operation: case.operation, answer, bytes, counts, texts_unchanged }
}

/// What differs between two outcomes of a case, in words; nothing if they are the same.
pub fn difference(left: &Outcome, right: &Outcome) -> Option<String> {
    if left.answer != right.answer {
        return Some(format!("answers {} and {}", left.words(), right.words()));
    }
    if !left.texts_unchanged || !right.texts_unchanged {
        return Some("a lent text was changed".to_string());
    }
    first_difference("byte", &left.bytes, &right.bytes).or_else(|| first_difference("count", &left.counts, &right.counts))
}

fn first_difference<T: PartialEq + std::fmt::Display>(what: &str, left: &[T], right: &[T]) -> Option<String> {
    if left == right {
        return None;
    }
    let at = left.iter().zip(right).position(|(one, other)| one != other)?;
    let place = at as isize - GUARD as isize;
    Some(format!("{what} {place} of the lent buffer: {} and {}", left[at], right[at]))
}

impl std::fmt::Display for Case {
    fn fmt(&self, to: &mut std::fmt::Formatter<'_>) -> std::fmt::Result {
        write!(to, "{} (buffer {}", self.operation.name(), self.room)?;
        if self.operation == Operation::RefusedLine {
            write!(to, ", choice {}, line {}", self.choice, self.line)?;
        }
        writeln!(to, ")")?;
        for (name, text) in self.operation.text_names().iter().zip(&self.texts) {
            writeln!(to, "--- {name}, {} bytes", text.len())?;
            writeln!(to, "{}", shown(text))?;
        }
        Ok(())
    }
}

/// A text with other than plain bytes escaped, long lines and long texts cut, and an unended last line said to be one.
fn shown(text: &[u8]) -> String {
    let mut lines: Vec<String> = text.split(|byte| *byte == 10).take(SHOWN_LINES + 1).map(shown_line).collect();
    if lines.len() > SHOWN_LINES {
        lines[SHOWN_LINES] = "(and so on)".to_string();
    } else if text.is_empty() {
        lines[0] = "(empty)".to_string();
    } else if text.ends_with(&[10]) {
        lines.pop();
    } else {
        lines.push("(no line end)".to_string());
    }
    lines.join("\n")
}

const SHOWN_LINES: usize = 100;
const SHOWN_BYTES: usize = 200;

fn shown_line(line: &[u8]) -> String {
    let start = &line[..line.len().min(SHOWN_BYTES)];
    let more = if line.len() > SHOWN_BYTES { format!(" (and so on, {} bytes)", line.len()) } else { String::new() };
    format!("{}{more}", start.escape_ascii())
}
