//! Lines, fields and numbers.

use super::Requests;
use std::collections::HashMap;
use std::sync::OnceLock;

/// A piece of a text up to its ending. The last piece may lack one.
#[derive(Clone, Copy, Debug, PartialEq, Eq)]
pub struct Line<'a> {
    /// From 1.
    pub number: u64,
    /// Where the line starts in its text.
    pub start: usize,
    /// Without the ending.
    pub bytes: &'a [u8],
    /// Nothing if the piece lacks one.
    pub ending: &'a [u8],
}

impl Line<'_> {
    pub fn ended(&self) -> bool {
        !self.ending.is_empty()
    }

    /// Where the next line starts.
    pub fn next(&self) -> usize {
        self.start + self.bytes.len() + self.ending.len()
    }
}

/// All lines of a text, an unended last piece among them. Empty text has none.
pub fn lines(requests: Requests, text: &[u8]) -> Vec<Line<'_>> {
    let mut found: Vec<Line> = Vec::new();
    let mut start = 0;
    while start < text.len() {
        let end = (start..text.len()).find(|at| !ending(requests, &text[*at..]).is_empty()).unwrap_or(text.len());
        let line = Line { number: found.len() as u64 + 1, start, bytes: &text[start..end], ending: ending(requests, &text[end..]) };
        start = line.next();
        found.push(line);
    }
    found
}

/// The ending that a text begins with: byte 10, or 13 and 10. Nothing if it begins otherwise: then its first byte belongs to a
/// line, byte 13 too, and no field has room for one.
fn ending(requests: Requests, text: &[u8]) -> &[u8] {
    let length = match text {
        [13, 10, ..] if requests.carriage_returns => 2,
        [10, ..] => 1,
        _ => 0,
    };
    &text[..length]
}

#[derive(Clone, Copy, Debug, PartialEq, Eq)]
pub enum Field {
    Number(usize),
    Dash,
}

/// A line's letter and fields; which letters and how many fields are right is for each reader to say.
#[derive(Clone, Debug, PartialEq, Eq)]
pub struct Words {
    pub letter: char,
    pub fields: Vec<Field>,
}

/// Nothing if the line is malformed in any text: unended, no single capital letter in front, or a field that is
/// neither a number nor a dash.
pub fn words(line: &Line) -> Option<Words> {
    words_with(line, field)
}

/// The same where a field is another one (in an energy text).
pub fn words_with(line: &Line, field: fn(&[u8]) -> Option<Field>) -> Option<Words> {
    if !line.ended() {
        return None;
    }
    let mut pieces = line.bytes.split(|byte| *byte == b',');
    let letter = match pieces.next()? {
        [byte] if byte.is_ascii_uppercase() => *byte as char,
        _ => return None,
    };
    let fields = pieces.map(field).collect::<Option<Vec<Field>>>()?;
    Some(Words { letter, fields })
}

fn field(piece: &[u8]) -> Option<Field> {
    if piece == b"-" {
        return Some(Field::Dash);
    }
    numbers().get(piece).map(|value| Field::Number(*value))
}

/// The fields as numbers; nothing if there is a dash among them.
pub fn all_numbers(fields: &[Field]) -> Option<Vec<usize>> {
    let number = |field: &Field| match field {
        Field::Number(value) => Some(*value),
        Field::Dash => None,
    };
    fields.iter().map(number).collect()
}

/// The numbers of a line that has the letter and one or more numbers (`S` and `G`).
pub fn numbers_after(letter: char, line: &Line) -> Option<Vec<usize>> {
    let words = words(line)?;
    let numbers = all_numbers(&words.fields)?;
    (words.letter == letter && !numbers.is_empty()).then_some(numbers)
}

/// Every number there is, by the way it is written: one to four digits without needless leading zeros.
fn numbers() -> &'static HashMap<Vec<u8>, usize> {
    static DICTIONARY: OnceLock<HashMap<Vec<u8>, usize>> = OnceLock::new();
    DICTIONARY.get_or_init(|| (0..=9_999).map(|value: usize| (value.to_string().into_bytes(), value)).collect())
}
