//! Arrangements and replay: refusals 41 to 45, and the rows.

use super::order::Order;
use super::record::Record;
use super::text::{lines, numbers_after};
use super::{refuse, Refusal, Requests, PLACES};

/// The events of each line of an arrangement that keeps the order and has each event once.
pub fn read(requests: Requests, order: &Order, text: &[u8]) -> Result<Vec<Vec<usize>>, Refusal> {
    let mut arranged = Vec::new();
    let mut line_of = vec![None; order.events()];
    for (index, line) in lines(requests, text).iter().enumerate() {
        let Some(events) = numbers_after('G', line) else {
            return refuse(41, line.number);
        };
        let number = place(order, &mut line_of, index, &events);
        if number != 0 {
            return refuse(number, line.number);
        }
        arranged.push(events);
    }
    match line_of.iter().position(|line| line.is_none()) {
        Some(event) => refuse(45, event as u64),
        None => Ok(arranged),
    }
}

/// Puts a line's events on it; 0, or the number with which the line is refused.
fn place(order: &Order, line_of: &mut [Option<usize>], index: usize, events: &[usize]) -> u64 {
    if events.iter().any(|event| *event >= line_of.len()) {
        return 42;
    }
    for event in events {
        if line_of[*event].replace(index).is_some() {
            return 43;
        }
    }
    let kept = |f: &usize| (0..line_of.len()).all(|e| in_place(order, line_of, e, *f));
    if events.iter().all(kept) { 0 } else { 44 }
}

/// Does e, a predecessor of f or none, stand where f's line asks? A predecessor that has not come yet does not.
fn in_place(order: &Order, line_of: &[Option<usize>], e: usize, f: usize) -> bool {
    if order.strictly_before(e, f) {
        return line_of[e].is_some() && line_of[e] < line_of[f];
    }
    if order.not_later(e, f) {
        return line_of[e].is_some() && line_of[e] <= line_of[f];
    }
    true
}

/// Row k counts the conditions that are there after k lines: made (or initial), and not yet consumed.
pub fn rows(record: &Record, lines: &[Vec<usize>]) -> Vec<[u16; PLACES]> {
    let mut played = vec![false; record.events.len()];
    let mut rows = vec![row(record, &played)];
    for events in lines {
        events.iter().for_each(|event| played[*event] = true);
        rows.push(row(record, &played));
    }
    rows
}

fn row(record: &Record, played: &[bool]) -> [u16; PLACES] {
    let mut row = [0; PLACES];
    for condition in &record.conditions {
        let there = condition.producer.is_none_or(|event| played[event]);
        let gone = condition.consumer.is_some_and(|event| played[event]);
        if there && !gone {
            row[condition.place] += 1;
        }
    }
    row
}
