//! Random arrangements of a record: mostly one that keeps its order, else one that has been broken.

use crate::case::{lent, run, Case, Operation};
use crate::model::arrangement_text;
use crate::rng::Rng;
use crate::sim::{EVENTS, SIMULATOR};

/// An arrangement for the record; if the record is no process, of as many events as it may have.
pub fn arrangement(rng: &mut Rng, net: &[u8], record: &[u8]) -> Vec<u8> {
    let mut outcome = run(&SIMULATOR, &Case::new(Operation::Check, &[net, record]));
    let mut lines = if outcome.answer.accepted() {
        keeping(rng, outcome.answer.a as usize, lent(&mut outcome.bytes))
    } else {
        vec![vec![0], vec![1, 2]]
    };
    if rng.chance(35) {
        (0..rng.between(1, 2)).for_each(|_| break_lines(rng, &mut lines));
    }
    arrangement_text(&lines)
}

/// A random arrangement that keeps the order of a check's table. Each line takes some of the events whose strict
/// predecessors are placed, and with each all its weak predecessors that are still left.
fn keeping(rng: &mut Rng, events: usize, table: &[u8]) -> Vec<Vec<usize>> {
    let entry = |e: usize, f: usize| table[EVENTS * e + f];
    let share = rng.pick(&[0, 0, 20, 60, 100]);
    let mut left: Vec<usize> = (0..events).collect();
    let mut lines = Vec::new();
    while !left.is_empty() {
        let free = |f: usize| !left.iter().any(|e| entry(*e, f) == 2);
        let ready: Vec<usize> = left.iter().copied().filter(|f| free(*f)).collect();
        let first = rng.pick(&ready);
        let chosen: Vec<usize> = ready.iter().copied().filter(|f| *f == first || rng.chance(share)).collect();
        let taken = |e: usize| chosen.iter().any(|f| *f == e || entry(e, *f) == 1);
        let (mut line, rest): (Vec<usize>, Vec<usize>) = left.iter().partition(|e| taken(**e));
        rng.shuffle(&mut line);
        lines.push(line);
        left = rest;
    }
    lines
}

/// One change that mostly breaks the order, or repeats, drops or adds an event.
fn break_lines(rng: &mut Rng, lines: &mut Vec<Vec<usize>>) {
    if lines.is_empty() {
        return lines.push(vec![rng.below(2)]);
    }
    let (one, other) = (rng.below(lines.len()), rng.below(lines.len()));
    match rng.below(8) {
        0 => lines.swap(one, other),
        1 => merge(lines, one),
        2 => split(lines, one),
        3 => drop(lines.remove(one)),
        4 => lines[other].insert(0, rng.below(EVENTS + 2)),
        5 => repeat(rng, lines, one, other),
        6 => exchange(rng, lines, one, other),
        _ => shift(rng, lines, one, other),
    }
    lines.retain(|line| !line.is_empty());
}

fn merge(lines: &mut Vec<Vec<usize>>, at: usize) {
    if at + 1 < lines.len() {
        let next = lines.remove(at + 1);
        lines[at].extend(next);
    }
}

fn split(lines: &mut Vec<Vec<usize>>, at: usize) {
    let half = lines[at].len() / 2;
    let rest = lines[at].split_off(half);
    lines.insert(at + 1, rest);
}

fn repeat(rng: &mut Rng, lines: &mut [Vec<usize>], one: usize, other: usize) {
    let event = rng.pick(&lines[one]);
    lines[other].push(event);
}

fn exchange(rng: &mut Rng, lines: &mut [Vec<usize>], one: usize, other: usize) {
    let (first, second) = (rng.below(lines[one].len()), rng.below(lines[other].len()));
    let (this, that) = (lines[one][first], lines[other][second]);
    lines[one][first] = that;
    lines[other][second] = this;
}

fn shift(rng: &mut Rng, lines: &mut [Vec<usize>], one: usize, other: usize) {
    let at = rng.below(lines[one].len());
    let event = lines[one].remove(at);
    lines[other].push(event);
}
