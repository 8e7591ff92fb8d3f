//! What carriage returns add: texts with either line end, mixed or not, and byte 13 where it does not belong.

use super::round_with;
use crate::case::{Case, Operation};
use crate::rng::Rng;
use crate::sim::{Requests, LONGEST_INPUT};

/// Byte 13 before the byte 10 of all lines, of some or of none, text by text, and now and then elsewhere; often where a line is
/// only looked for, since there nothing is hidden behind a malformed line.
pub fn put(rng: &mut Rng, case: &mut Case) {
    let often = if case.operation == Operation::RefusedLine { 30 } else { 3 };
    for text in &mut case.texts {
        let percent = rng.pick(&[0, 0, 10, 50, 100, 100]);
        *text = ends(rng, text, percent);
        if rng.chance(often) {
            misplace(rng, text);
        }
    }
    if case.operation == Operation::Program {
        parting(rng, &mut case.texts[0]);
    }
}

/// An input's length is kept within what the program reads, or just past it; now and then byte 13 stands wrong at its line `=`.
fn parting(rng: &mut Rng, input: &mut Vec<u8>) {
    if input.len() > LONGEST_INPUT {
        fit(rng, input);
    }
    let found = input.iter().position(|byte| *byte == b'=').filter(|_| rng.chance(4));
    if let Some(at) = found {
        let wrong = rng.pick(&[&b"\r="[..], b"=\r", b"=\r\r", b"=\n\r", b"=\r="]);
        input.splice(at..=at, wrong.iter().copied());
    }
}

/// The text with byte 13 before so many percent of the bytes 10 that have none yet.
fn ends(rng: &mut Rng, text: &[u8], percent: usize) -> Vec<u8> {
    let mut ended = Vec::with_capacity(text.len());
    for byte in text {
        if *byte == 10 && ended.last() != Some(&13) && rng.chance(percent) {
            ended.push(13);
        }
        ended.push(*byte);
    }
    ended
}

/// The text with byte 13 before every byte 10.
pub fn every_end(text: &[u8]) -> Vec<u8> {
    ends(&mut Rng::for_round(0, 0), text, 100)
}

/// Byte 13 anywhere, twice before a line end, behind one, in its place, alone on a line, or as the last byte.
fn misplace(rng: &mut Rng, text: &mut Vec<u8>) {
    let ends: Vec<usize> = (0..text.len()).filter(|at| text[*at] == 10).collect();
    let end = ends.get(rng.below(ends.len().max(1))).copied().unwrap_or(text.len());
    let behind = text.len().min(end + 1);
    match rng.below(8) {
        0 | 1 => text.insert(rng.below(text.len() + 1), 13),
        2 => drop(text.splice(end..end, [13, 13])),
        3 => text.insert(behind, 13),
        4 => drop(text.splice(end..behind, [13])),
        5 => drop(text.splice(behind..behind, [13, 10])),
        6 => drop(text.splice(end.., [13])),
        _ => text.push(13),
    }
}

/// An input that filled what the program reads fills it again, or lacks a byte, or has one too many: with fewer bytes in its
/// last line, which is long.
fn fit(rng: &mut Rng, input: &mut Vec<u8>) {
    let surplus = input.len().saturating_sub(rng.between(LONGEST_INPUT - 1, LONGEST_INPUT + 1));
    let end = input.len() - 4;
    input.drain(end - surplus..end);
}

/// Cases without byte 13, each with the same case under other line ends; the program's where it reads both forms.
pub fn two_endings(rng: &mut Rng) -> Vec<(Case, Case)> {
    let without = |case: &Case| case.texts.iter().all(|text| !text.contains(&13));
    let plain: Vec<Case> = round_with(rng, Requests::WITHOUT_RETURNS).into_iter().filter(without).collect();
    let mut pairs = Vec::new();
    for case in plain {
        let mut other = case.clone();
        for text in &mut other.texts {
            let percent = rng.pick(&[0, 10, 50, 100, 100]);
            *text = ends(rng, text, percent);
        }
        if case.operation != Operation::Program || other.texts[0].len() <= LONGEST_INPUT {
            pairs.push((case, other));
        }
    }
    pairs
}
