//! Damage to texts, as from a drive that lost power, and the bytes and numbers at which readers go wrong.

use crate::rng::Rng;

/// Bytes of every class, letters in use and not, and some that look like others.
pub const BYTES: [u8; 32] = [
    b'0', b'1', b'9', b',', b'-', b'\n', b'P', b'T', b'I', b'O', b'H', b'S', b'E', b'C', b'B', b'A', b'G', b'R', b'X', b'Z', b'p', b's', b'=', b' ', b'+', b';', b'\r', b'\t', 0, 0x2F, 0x3A, 0xFF,
];

/// Numbers at limits, too long, or with needless zeros, and what is no number.
pub const NUMBERS: [&str; 22] = [
    "-", "", "0", "1", "00", "01", "31", "32", "33", "127", "128", "129", "511", "512", "513", "4095", "4096", "9999", "09999", "10000", "99999", "18446744073709551616",
];

pub fn damage(rng: &mut Rng, text: &[u8]) -> Vec<u8> {
    let mut bytes = text.to_vec();
    match rng.below(14) {
        0 | 1 => cut(rng, &mut bytes),
        2 => replace(rng, &mut bytes),
        3 => insert(rng, &mut bytes),
        4 => remove(rng, &mut bytes),
        5 | 6 => other_number(rng, &mut bytes),
        7 => zero_before(rng, &mut bytes),
        8 => line_end(rng, &mut bytes),
        9 => other_case(rng, &mut bytes),
        10 => bytes.extend(rng.pick(&[&b"P,1"[..], b"S,0", b"x", b"\n", b"T", b"G,0", b"B,0,0"])),
        _ => bytes = other_lines(rng, &bytes),
    }
    bytes
}

fn cut(rng: &mut Rng, bytes: &mut Vec<u8>) {
    let length = rng.below(bytes.len() + 1);
    bytes.truncate(length);
}

fn replace(rng: &mut Rng, bytes: &mut [u8]) {
    if !bytes.is_empty() {
        let at = rng.below(bytes.len());
        bytes[at] = rng.pick(&BYTES);
    }
}

fn insert(rng: &mut Rng, bytes: &mut Vec<u8>) {
    let at = rng.below(bytes.len() + 1);
    bytes.insert(at, rng.pick(&BYTES));
}

fn remove(rng: &mut Rng, bytes: &mut Vec<u8>) {
    if !bytes.is_empty() {
        let at = rng.below(bytes.len());
        bytes.remove(at);
    }
}

fn other_case(rng: &mut Rng, bytes: &mut [u8]) {
    let letters: Vec<usize> = (0..bytes.len()).filter(|at| bytes[*at].is_ascii_alphabetic()).collect();
    if !letters.is_empty() {
        bytes[rng.pick(&letters)] ^= 0x20;
    }
}

/// Where a number starts and ends.
fn any_number(rng: &mut Rng, bytes: &[u8]) -> Option<(usize, usize)> {
    let starts = |at: &usize| bytes[*at].is_ascii_digit() && (*at == 0 || !bytes[at - 1].is_ascii_digit());
    let starts: Vec<usize> = (0..bytes.len()).filter(starts).collect();
    let start = *starts.get(rng.below(starts.len().max(1)))?;
    let length = bytes[start..].iter().take_while(|byte| byte.is_ascii_digit()).count();
    Some((start, start + length))
}

fn other_number(rng: &mut Rng, bytes: &mut Vec<u8>) {
    if let Some((start, end)) = any_number(rng, bytes) {
        let number = rng.pick(&NUMBERS);
        bytes.splice(start..end, number.bytes());
    }
}

fn zero_before(rng: &mut Rng, bytes: &mut Vec<u8>) {
    if let Some((start, _)) = any_number(rng, bytes) {
        bytes.insert(start, b'0');
    }
}

/// A line end lost, doubled, or with byte 13 before it.
fn line_end(rng: &mut Rng, bytes: &mut Vec<u8>) {
    let ends: Vec<usize> = (0..bytes.len()).filter(|at| bytes[*at] == 10).collect();
    if ends.is_empty() {
        return bytes.push(10);
    }
    let at = rng.pick(&ends);
    match rng.below(3) {
        0 => drop(bytes.remove(at)),
        1 => bytes.insert(at, 10),
        _ => bytes.insert(at, 13),
    }
}

/// Two lines swapped, or one dropped, doubled or moved to the end.
fn other_lines(rng: &mut Rng, bytes: &[u8]) -> Vec<u8> {
    let mut lines: Vec<&[u8]> = bytes.split_inclusive(|byte| *byte == 10).collect();
    if lines.is_empty() {
        return Vec::new();
    }
    let (one, other) = (rng.below(lines.len()), rng.below(lines.len()));
    match rng.below(4) {
        0 => lines.swap(one, other),
        1 => drop(lines.remove(one)),
        2 => lines.insert(other, lines[one]),
        _ => lines.push(lines[one]),
    }
    lines.concat()
}
