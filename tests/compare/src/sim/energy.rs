//! The energy text and what a record's events draw (02, 2026-05): refusals 52 and 53. All is worked out in whole numbers; what
//! is rounded is a fraction of them (`rounding`). The draw is not summed event by event: each transition's events are counted.

use super::net::Net;
use super::record::Record;
use super::rounding::{difference, nearest};
use super::text::{all_numbers, lines, words_with, Field, Words};
use super::{refuse, Refusal};

const MOST: usize = 1_000_000;
const MOST_VOLTAGE: usize = 60_000;

/// In µF, mV and mV.
#[derive(Clone, Copy, Debug, Default, PartialEq, Eq)]
struct Capacitor {
    capacitance: usize,
    full: usize,
    cutoff: usize,
}

/// What an energy text says.
#[derive(Clone, Debug, Default, PartialEq, Eq)]
pub struct Figures {
    capacitor: Capacitor,
    /// What an event of each transition draws, in µJ.
    draws: Vec<u128>,
}

pub fn read(net: &Net, text: &[u8]) -> Result<Figures, Refusal> {
    let mut figures = Figures::default();
    let lines = lines(net.requests, text);
    for line in &lines {
        let taken = words_with(line, field).and_then(|words| figures.take(line.number, &words));
        if taken.is_none() {
            return refuse(52, line.number);
        }
    }
    if lines.len() != net.transitions.len() + 1 {
        return refuse(53, 0);
    }
    Ok(figures)
}

/// A number of up to seven digits: the piece is how its value is written.
fn field(piece: &[u8]) -> Option<Field> {
    let value: usize = std::str::from_utf8(piece).ok()?.parse().ok()?;
    (piece.len() <= 7 && value.to_string().as_bytes() == piece).then_some(Field::Number(value))
}

impl Figures {
    /// Takes one line in; nothing if it is not one that may stand there.
    fn take(&mut self, line: u64, words: &Words) -> Option<()> {
        let numbers = all_numbers(&words.fields)?;
        match (line, words.letter, numbers.as_slice()) {
            (1, 'K', [capacitance, full, cutoff]) => {
                self.capacitor = Capacitor { capacitance: *capacitance, full: *full, cutoff: *cutoff };
                self.capacitor.in_range().then_some(())
            }
            (2.., 'J', [energy]) => self.draw(&[*energy, 1]),
            (2.., 'W', [power, time]) => self.draw(&[*power, *time]),
            _ => None,
        }
    }

    /// What the next transition's events draw each: milliwatts by milliseconds, or microjoules by one.
    fn draw(&mut self, factors: &[usize]) -> Option<()> {
        self.draws.push(factors.iter().map(|factor| *factor as u128).product());
        factors.iter().all(|factor| *factor <= MOST).then_some(())
    }

    /// Usable energy, draw and what is left, as the bits of f64.
    pub fn energies(&self, record: &Record) -> [u64; 3] {
        let usable = self.capacitor.usable();
        let draw = nearest(self.drawn(record), 1);
        [usable, draw, difference(usable, draw)]
    }

    /// What all events draw.
    fn drawn(&self, record: &Record) -> u128 {
        let events = |transition: usize| record.events.iter().filter(|of| **of == transition).count() as u128;
        self.draws.iter().enumerate().map(|(transition, draw)| events(transition) * draw).sum()
    }
}

impl Capacitor {
    fn in_range(&self) -> bool {
        (1..=MOST).contains(&self.capacitance) && self.full <= MOST_VOLTAGE && self.cutoff <= self.full
    }

    /// µF by mV squared are 10^-12 joules; the difference of the squares is their sum by their difference.
    fn usable(&self) -> u64 {
        let squares = (self.full + self.cutoff) as u128 * (self.full - self.cutoff) as u128;
        nearest(self.capacitance as u128 * squares, 2 * 1_000_000)
    }
}
