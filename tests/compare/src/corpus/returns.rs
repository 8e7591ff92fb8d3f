//! Carriage returns: texts with 13 10 damaged at every byte, every short text of a few pieces, how texts end, and sizes.

use super::{sound, text, with_text};
use crate::case::{Case, Operation};
use crate::gen::every_end;
use crate::sim::LONGEST_INPUT;
use crate::vectors::{CASE_B, DRIVE, LOOP};

pub fn add(cases: &mut Vec<Case>) {
    for case in sound() {
        for which in 0..case.texts.len() {
            let plain = &case.texts[which];
            let changed = [other_ends(plain), damaged(&every_end(plain)), cut_or_more(&every_other_end(plain)), vec![[&plain[..], b"\r"].concat()]];
            cases.extend(changed.into_iter().flatten().map(|text| with_text(&case, which, text)));
        }
        cases.push(Case { texts: case.texts.iter().map(|text| every_end(text)).collect(), ..case });
    }
    short_texts(cases);
    short_inputs(cases);
    short_lines(cases);
    text_ends(cases);
    input_lengths(cases);
    long_texts(cases);
}

/// Byte 13 before the byte 10 of each line in turn, and of each but that one.
fn other_ends(text: &[u8]) -> Vec<Vec<u8>> {
    let lines: Vec<&[u8]> = text.split_inclusive(|byte| *byte == 10).collect();
    let with = |at: usize| [lines[..at].concat(), every_end(lines[at]), lines[at + 1..].concat()].concat();
    let without = |at: usize| [every_end(&lines[..at].concat()), lines[at].to_vec(), every_end(&lines[at + 1..].concat())].concat();
    (0..lines.len()).flat_map(|at| [with(at), without(at)]).collect()
}

/// Byte 13 before the byte 10 of lines 1, 3, 5 and so on.
fn every_other_end(text: &[u8]) -> Vec<u8> {
    let lines = text.split_inclusive(|byte| *byte == 10).enumerate();
    lines.flat_map(|(number, line)| if number % 2 == 0 { every_end(line) } else { line.to_vec() }).collect()
}

/// The text cut at every byte, and with byte 13 put in at every place.
fn cut_or_more(text: &[u8]) -> Vec<Vec<u8>> {
    (0..=text.len()).flat_map(|at| [text[..at].to_vec(), [&text[..at], b"\r", &text[at..]].concat()]).collect()
}

/// The same, and 10 and 13 10 put in at every place, each byte left out, made 13 or 10, or changed with the next.
fn damaged(text: &[u8]) -> Vec<Vec<u8>> {
    let mut changed = cut_or_more(text);
    for at in 0..text.len() {
        let (before, after) = (&text[..at], &text[at + 1..]);
        changed.extend([&b"\n"[..], b"\r\n"].map(|more| [before, more, &text[at..]].concat()));
        changed.extend([&b""[..], b"\r", b"\n"].map(|other| [before, other, after].concat()));
        if let Some((next, rest)) = after.split_first() {
            changed.push([before, &[*next, text[at]], rest].concat());
        }
    }
    changed
}

/// Every text of up to so many of the pieces.
pub fn every_text(pieces: &[&[u8]], most: usize) -> Vec<Vec<u8>> {
    let mut texts = vec![Vec::new()];
    let mut from = 0;
    for _ in 0..most {
        let last = texts[from..].to_vec();
        from = texts.len();
        texts.extend(last.iter().flat_map(|text| pieces.iter().map(|piece| [&text[..], piece].concat())));
    }
    texts
}

/// Each reader on every text of a few line ends, halves of them and lines of its own.
fn short_texts(cases: &mut Vec<Case>) {
    let (turns, drive, turned) = (text(LOOP), text(DRIVE), text(CASE_B));
    for net in every_text(&[b"\r", b"\n", b"P,1"], 6) {
        cases.push(Case::new(Operation::ReadNet, &[&net]));
    }
    for log in every_text(&[b"\r", b"\n", b"S,0"], 6) {
        cases.push(Case::new(Operation::Build, &[&turns, &log]));
    }
    for record in every_text(&[b"\r", b"\n", b"C,0,-,-"], 6) {
        cases.push(Case::new(Operation::Check, &[b"P,2\r\n", &record]));
        cases.push(Case::new(Operation::Arrange, &[b"P,2\n", &record]));
    }
    for arrangement in every_text(&[b"\r", b"\n", b"G,0", b"G,1"], 5) {
        cases.push(Case::new(Operation::Replay, &[&drive, &turned, &arrangement]));
    }
}

/// The program on every text of up to five of the pieces, alone and behind a net that ends either way.
fn short_inputs(cases: &mut Vec<Case>) {
    let turns = text(LOOP);
    for input in every_text(&[b"\r", b"\n", b"=", b"S,0"], 5) {
        cases.push(Case::new(Operation::Program, &[&input]));
        cases.push(Case::new(Operation::Program, &[&[&turns[..], &input].concat()]));
        if input.len() < 6 {
            cases.push(Case::new(Operation::Program, &[&[&every_end(&turns)[..], &input].concat()]));
        }
    }
}

/// Every line, and one more, of every short text, as either of the two.
fn short_lines(cases: &mut Vec<Case>) {
    for short in every_text(&[b"\r", b"\n", b"ab"], 5) {
        let last = 2 + short.iter().filter(|byte| **byte == 10).count() as u64;
        for line in 1..=last {
            cases.push(Case::new(Operation::RefusedLine, &[&short, b"\r\nx\r\n"]).asking(0, line));
            cases.push(Case::new(Operation::RefusedLine, &[b"x\r\r\n", &short]).asking(1, line));
        }
    }
}

/// Texts that end in the middle of something, longest fields among it: on guarded pages nothing is there to be read behind.
fn text_ends(cases: &mut Vec<Case>) {
    let ends = ["", ",", "0", "9", "99", "999", "9999", "9999,", "9999,9999", "0000", "10000", "-", "-,9999", "9999,9999,9999", "9999,-,9999"];
    let behind = ["", "\r", "\n", "\r\n", "\r\r", "\r\r\n", "\n\r", "=", "\r=", "=\r", "\r\n=", "\r\n=\r", "\n=", "\n=\r"];
    let (turns, drive, record) = (text(LOOP), text(DRIVE), text(CASE_B));
    for end in ends {
        for more in behind {
            let last = |letter: &str| format!("{letter}{end}{more}").into_bytes();
            for letter in ["P,", "T", "I,", "O,", "H,", "R,", ""] {
                let net = [&turns[..], &last(letter)].concat();
                cases.push(Case::new(Operation::ReadNet, &[&net]));
                cases.push(Case::new(Operation::Program, &[&net]));
                cases.push(Case::new(Operation::RefusedLine, &[&net, b""]).asking(0, 5));
            }
            cases.push(Case::new(Operation::Build, &[&turns, &last("S,")]));
            cases.push(Case::new(Operation::Replay, &[&drive, &record, &last("G,")]));
            for letter in ["E,", "C,", "B,", "A,", "R,"] {
                cases.push(Case::new(Operation::Check, &[&turns, &last(letter)]));
            }
        }
    }
}

/// Inputs around the longest that the program reads, with byte 13 in their line ends or elsewhere.
fn input_lengths(cases: &mut Vec<Case>) {
    let turns = every_end(&text(LOOP));
    for length in LONGEST_INPUT - 3..LONGEST_INPUT + 4 {
        for (line, end) in [("S,0\r\n", "\r\n"), ("S,0\r\n", "\n"), ("S,0\r\n", "\r"), ("\r", "\n"), ("\r\n", "\r\n"), ("S,0\n", "\r\n")] {
            let mut input = [&turns[..], b"=\r\n"].concat();
            let room = length - input.len() - end.len();
            input.extend(line.bytes().cycle().take(room).chain(end.bytes()));
            cases.push(Case::new(Operation::Program, &[&input]));
            let parted = [&vec![b'x'; length - 3 - end.len()], end.as_bytes(), b"=\r\n"].concat();
            cases.push(Case::new(Operation::Program, &[&parted]));
        }
    }
}

/// Texts far past every limit.
fn long_texts(cases: &mut Vec<Case>) {
    let (drive, record) = (text(DRIVE), text(CASE_B));
    for long in [b"\r\n".repeat(70_000), b"\r".repeat(200_000), b"P,0\r\n".repeat(70_000), [&b"\r".repeat(70_000)[..], b"\n"].concat()] {
        cases.push(Case::new(Operation::ReadNet, &[&long]));
        cases.push(Case::new(Operation::Program, &[&long]));
        cases.push(Case::new(Operation::Build, &[&drive, &long]));
        cases.push(Case::new(Operation::Check, &[&drive, &long]));
        cases.push(Case::new(Operation::Replay, &[&drive, &record, &long]));
        for line in [1, 2, 65_535, 65_536, 65_537, 70_000, 70_001] {
            cases.push(Case::new(Operation::RefusedLine, &[&long, b"x"]).asking(0, line));
            cases.push(Case::new(Operation::RefusedLine, &[b"x", &long]).asking(1, line));
        }
    }
}
