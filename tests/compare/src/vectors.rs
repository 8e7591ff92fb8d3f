//! Cases with the answer written out: the marked cases a to k of document 01, one or more for each reading of it, and those
//! of the requests of document 02.
//! They judge the simulator (unit tests) and the library (`compare`) alike, so that neither is only held to the other.

mod arrangements;
mod buffers;
mod energy;
mod logs;
mod marked;
mod nets;
mod programs;
mod readers;
mod records;
mod returns;
mod swaps;
mod weights;

use crate::answer::Answer;
use crate::case::{fresh, lent, Case, Operation, Outcome};
use crate::sim::{EVENTS, PLACES, ROWS_ROOM, TABLE_ROOM};

/// Write, flush, park; place 1 is dirty.
pub const DRIVE: &str = "P,1 P,0 P,1 P,0 P,0 T T T I,0,0 O,0,1 I,1,1 O,1,4 I,2,2 O,2,3 H,1,2";
/// The record of case a but its mark, and with it.
pub const CASE_A_UNMARKED: &str = "E,0 E,1 E,2 C,0,-,0 C,2,-,2 C,1,0,1 C,4,1,- C,3,2,-";
pub const CASE_A: &str = "E,0 E,1 E,2 C,0,-,0 C,2,-,2 C,1,0,1 C,4,1,- C,3,2,- A,2,2";
pub const CASE_B: &str = "E,0 E,2 C,0,-,0 C,2,-,1 C,1,0,- C,3,1,- B,2,1";
/// Two transitions, each of which fills the place that inhibits the other; the record of `S,0,1`.
pub const MUTUAL: &str = "P,1 P,1 P,0 P,0 T T I,0,0 O,0,2 I,1,1 O,1,3 H,3,0 H,2,1";
pub const MUTUAL_RECORD: &str = "E,0 E,1 C,0,-,0 C,1,-,1 C,2,0,- C,3,1,- B,3,0 B,2,1";
/// A place that keeps its one token, and a transition that moves it round.
pub const LOOP: &str = "P,1 T I,0,0 O,0,0";

pub struct Vector {
    pub name: String,
    pub case: Case,
    answer: Answer,
    written: Written,
}

enum Written {
    Nothing,
    Text(Vec<u8>),
    /// The table's entries that are not 0: row, column, value.
    Table(Vec<(usize, usize, u8)>),
    /// The rows of counts, without the columns beyond the places.
    Rows(Vec<Vec<u16>>),
}

impl Vector {
    /// What must come out, every lent byte and count included.
    pub fn outcome(&self) -> Outcome {
        let (mut bytes, mut counts) = fresh(&self.case);
        match &self.written {
            Written::Nothing => {}
            Written::Text(text) => lent(&mut bytes)[..text.len()].copy_from_slice(text),
            Written::Table(entries) => {
                let table = lent(&mut bytes);
                table[..TABLE_ROOM].fill(0);
                entries.iter().for_each(|(e, f, value)| table[EVENTS * e + f] = *value);
            }
            Written::Rows(expected) => {
                let rows = lent(&mut counts);
                rows[..ROWS_ROOM].fill(0);
                for (k, row) in expected.iter().enumerate() {
                    rows[PLACES * k..PLACES * k + row.len()].copy_from_slice(row);
                }
            }
        }
        Outcome { operation: self.case.operation, answer: self.answer, bytes, counts, texts_unchanged: true }
    }
}

/// A text, from bytes as they are or from words parted by single spaces, each of which is a line; a `~` at the very end
/// takes the last line's byte 10 away.
pub struct Text(pub Vec<u8>);

impl From<&str> for Text {
    fn from(words: &str) -> Text {
        if words.is_empty() {
            return Text(Vec::new());
        }
        let lines = words.replace(' ', "\n");
        match lines.strip_suffix('~') {
            Some(unended) => Text(unended.as_bytes().to_vec()),
            None => Text((lines + "\n").into_bytes()),
        }
    }
}

impl From<&String> for Text {
    fn from(words: &String) -> Text {
        Text::from(words.as_str())
    }
}

impl<const N: usize> From<&[u8; N]> for Text {
    fn from(bytes: &[u8; N]) -> Text {
        Text(bytes.to_vec())
    }
}

impl From<Vec<u8>> for Text {
    fn from(bytes: Vec<u8>) -> Text {
        Text(bytes)
    }
}

/// The word, so many times, parted by spaces.
pub fn times(count: usize, word: &str) -> String {
    vec![word; count].join(" ")
}

/// A line of a letter and so many equal numbers.
pub fn line_of(letter: char, count: usize, number: usize) -> String {
    format!("{letter}{}", format!(",{number}").repeat(count))
}

/// Collects vectors; each method states one operation's whole outcome.
#[derive(Default)]
pub struct Book {
    vectors: Vec<Vector>,
}

impl Book {
    fn add(&mut self, name: &str, case: Case, answer: Answer, written: Written) {
        self.vectors.push(Vector { name: name.to_string(), case, answer, written });
    }

    pub fn net(&mut self, name: &str, net: impl Into<Text>, places: usize, transitions: usize) {
        let case = Case::new(Operation::ReadNet, &[&net.into().0]);
        self.add(name, case, Answer::gives(places, transitions, 0), Written::Nothing);
    }

    pub fn built(&mut self, name: &str, net: impl Into<Text>, log: impl Into<Text>, record: impl Into<Text>) {
        let record = record.into().0;
        let case = Case::new(Operation::Build, &[&net.into().0, &log.into().0]);
        self.add(name, case, Answer::gives(record.len(), 0, 0), Written::Text(record));
    }

    /// Checked with events, conditions and independent pairs, and the table's entries that are not 0.
    pub fn checked(&mut self, name: &str, net: impl Into<Text>, record: impl Into<Text>, counts: [usize; 3], table: &[(usize, usize, u8)]) {
        let case = Case::new(Operation::Check, &[&net.into().0, &record.into().0]);
        let [events, conditions, pairs] = counts;
        self.add(name, case, Answer::gives(events, conditions, pairs), Written::Table(table.to_vec()));
    }

    pub fn replayed(&mut self, name: &str, net: impl Into<Text>, record: impl Into<Text>, arrangement: impl Into<Text>, rows: &[&[u16]]) {
        let case = Case::new(Operation::Replay, &[&net.into().0, &record.into().0, &arrangement.into().0]);
        let rows: Vec<Vec<u16>> = rows.iter().map(|row| row.to_vec()).collect();
        self.add(name, case, Answer::gives(rows.len() - 1, 0, 0), Written::Rows(rows));
    }

    pub fn arranged(&mut self, name: &str, net: impl Into<Text>, record: impl Into<Text>, arrangement: impl Into<Text>) {
        let arrangement = arrangement.into().0;
        let lines = arrangement.iter().filter(|byte| **byte == 10).count();
        let case = Case::new(Operation::Arrange, &[&net.into().0, &record.into().0]);
        self.add(name, case, Answer::gives(arrangement.len(), lines, 0), Written::Text(arrangement));
    }

    /// Usable energy, draw and what is left, to the last bit.
    pub fn energies(&mut self, name: &str, net: impl Into<Text>, record: impl Into<Text>, energy: impl Into<Text>, [usable, draw, left]: [f64; 3]) {
        let case = Case::new(Operation::Energy, &[&net.into().0, &record.into().0, &energy.into().0]);
        self.add(name, case, Answer::energies([usable, draw, left].map(f64::to_bits)), Written::Nothing);
    }

    pub fn line(&mut self, name: &str, texts: [impl Into<Text>; 2], asked: (u8, u64), start: usize, length: usize) {
        let [net, second] = texts.map(|text| text.into().0);
        let case = Case::new(Operation::RefusedLine, &[&net, &second]).asking(asked.0, asked.1);
        self.add(name, case, Answer::gives(start, length, 0), Written::Nothing);
    }

    pub fn no_line(&mut self, name: &str, texts: [impl Into<Text>; 2], asked: (u8, u64)) {
        let [net, second] = texts.map(|text| text.into().0);
        let case = Case::new(Operation::RefusedLine, &[&net, &second]).asking(asked.0, asked.1);
        self.add(name, case, Answer::refuses(46, asked.1), Written::Nothing);
    }

    /// The program's output, a record and its `Z` line, or an `X` line: either is printed, so the answer has no number.
    pub fn printed(&mut self, name: &str, input: impl Into<Text>, output: impl Into<Text>) {
        let output = output.into().0;
        let case = Case::new(Operation::Program, &[&input.into().0]);
        self.add(name, case, Answer::gives(output.len(), 0, 0), Written::Text(output));
    }

    /// Any operation refused on the texts given, with a buffer of the stated size.
    pub fn refused(&mut self, name: &str, operation: Operation, texts: &[&str], number: u64, spot: u64) {
        let texts: Vec<Vec<u8>> = texts.iter().map(|text| Text::from(*text).0).collect();
        let texts: Vec<&[u8]> = texts.iter().map(|text| text.as_slice()).collect();
        self.add(name, Case::new(operation, &texts), Answer::refuses(number, spot), Written::Nothing);
    }

    pub fn no_net(&mut self, name: &str, net: &str, number: u64, spot: u64) {
        self.refused(name, Operation::ReadNet, &[net], number, spot);
    }

    pub fn not_built(&mut self, name: &str, net: &str, log: &str, number: u64, spot: u64) {
        self.refused(name, Operation::Build, &[net, log], number, spot);
    }

    /// Refused alike by all four operations that take a record; an energy text is not looked at.
    pub fn no_record(&mut self, name: &str, net: &str, record: &str, number: u64, spot: u64) {
        self.refused(name, Operation::Check, &[net, record], number, spot);
        self.refused(name, Operation::Arrange, &[net, record], number, spot);
        self.refused(name, Operation::Replay, &[net, record, "G,0"], number, spot);
        self.refused(name, Operation::Energy, &[net, record, "x"], number, spot);
    }

    pub fn no_energies(&mut self, name: &str, net: &str, record: &str, energy: &str, number: u64, spot: u64) {
        self.refused(name, Operation::Energy, &[net, record, energy], number, spot);
    }

    pub fn not_replayed(&mut self, name: &str, net: &str, record: &str, arrangement: &str, number: u64, spot: u64) {
        self.refused(name, Operation::Replay, &[net, record, arrangement], number, spot);
    }

    /// The last vector again, with a buffer of another length.
    pub fn again_with_room(&mut self, name: &str, room: usize) {
        let last = self.vectors.pop().expect("a vector to repeat");
        let Vector { case, answer, written, .. } = last;
        self.add(name, case.with_room(room), answer, written);
    }
}

pub fn all() -> Vec<Vector> {
    let mut book = Book::default();
    marked::add(&mut book);
    nets::add(&mut book);
    logs::add(&mut book);
    records::add(&mut book);
    arrangements::add(&mut book);
    buffers::add(&mut book);
    programs::add(&mut book);
    readers::add(&mut book);
    returns::add(&mut book);
    swaps::add(&mut book);
    energy::add(&mut book);
    weights::add(&mut book);
    book.vectors
}
