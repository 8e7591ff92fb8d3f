//! The simulator: every operation of document 01 and the requests of document 02, written from the documents alone and by
//! other methods than a translation of their sentences, so that a shared mistake is unlikely:
//! - numbers are looked up in a dictionary of all ten thousand of them (`text`);
//! - the condition an event takes is found by rank, not by playing: the k-th taker at a place takes its k-th condition (`run`);
//! - so is the condition it reads: the one that comes after as many as earlier steps took from the place (`run`);
//! - weights are no numbers: an arc's place stands in a list as often as its weight says, and what counts by weight is the length
//!   of such lists, or that two are the same (`net`, `run`, `process`);
//! - the process rules compare sorted lists and sets (`process`);
//! - the closed order is a search over pairs (event, strict pair met yet?) (`order`);
//! - rows are counts of the conditions that lie between the played and the unplayed events (`replaying`);
//! - levels come from peeling off what has no strict predecessor left (`arranging`);
//! - energies are worked out in whole numbers, and f64 are rounded to digit by digit (`energy`, `rounding`).

mod arranging;
mod energy;
mod net;
mod order;
mod process;
mod program;
mod record;
mod refused;
mod replaying;
mod rounding;
mod run;
#[cfg(test)]
mod tests;
mod text;

use crate::answer::Answer;
use crate::case::Subject;
use order::Order;
use record::Record;

pub const RECORD_ROOM: usize = 48_256;
pub const TABLE_ROOM: usize = 16_384;
pub const ROWS_ROOM: usize = 4_128;
pub const ARRANGEMENT_ROOM: usize = 768;
/// What any answer of the program needs: the longest record and `Z,128,512,8128,128` with its byte 10.
pub const PROGRAM_ROOM: usize = RECORD_ROOM + 19;

/// The most events of a record; also the width of the check's table.
pub const EVENTS: usize = 128;
pub const CONDITIONS: usize = 512;
pub const MARKS: usize = 4_096;
/// The most places of a net; also the width of replay's rows.
pub const PLACES: usize = 32;
pub const TRANSITIONS: usize = 32;
pub const TOKENS: usize = 512;
/// The greatest weight of an arc.
pub const WEIGHT: usize = 16;
/// Bytes of the program's input.
pub const LONGEST_INPUT: usize = 65_536;

/// Document 01's number and spot.
#[derive(Clone, Copy, Debug, PartialEq, Eq)]
pub struct Refusal {
    pub number: u64,
    pub spot: u64,
}

pub fn refuse<T>(number: u64, spot: u64) -> Result<T, Refusal> {
    Err(Refusal { number, spot })
}

fn answer(result: Result<Answer, Refusal>) -> Answer {
    result.unwrap_or_else(|refusal| Answer::refuses(refusal.number, refusal.spot))
}

fn room(have: usize, need: usize, number: u64) -> Result<(), Refusal> {
    if have < need {
        return refuse(number, 0);
    }
    Ok(())
}

/// The requests of document 02 that are taken in. Without any, what is left is document 01.
#[derive(Clone, Copy, Debug, Default, PartialEq, Eq)]
pub struct Requests {
    /// 2026-01: lines `R` in nets and records.
    pub read_arcs: bool,
    /// 2026-02: 13 and 10 end a line too.
    pub carriage_returns: bool,
    /// 2026-04: two events are no longer independent where one is not later than the other.
    pub free_to_swap: bool,
    /// 2026-06: a third field of lines `I` and `O` in nets.
    pub weights: bool,
}

impl Requests {
    pub const ALL: Requests = Requests { read_arcs: true, carriage_returns: true, free_to_swap: true, weights: true };
    /// What was taken in before each request that adds to the texts. 2026-04 is in all: it adds nothing to them, and changes the
    /// answers to old ones too.
    pub const BEFORE: [Requests; 3] = [
        Requests { read_arcs: false, carriage_returns: false, weights: false, ..Self::ALL },
        Requests { carriage_returns: false, weights: false, ..Self::ALL },
        Requests { weights: false, ..Self::ALL },
    ];
    /// All but 2026-02.
    pub const WITHOUT_RETURNS: Requests = Requests { carriage_returns: false, ..Self::ALL };
    /// What the peer has.
    pub const OF_PEER: Requests = Requests { read_arcs: false, carriage_returns: false, ..Self::ALL };
}

/// The net, the record and its order, when none of 11 to 15, 51, 54 and 31 to 39 is met.
fn accepted(requests: Requests, net: &[u8], record: &[u8]) -> Result<(net::Net, Record, Order), Refusal> {
    let net = net::read(requests, net)?;
    let record = record::read(&net, record)?;
    let order = process::judge(&net, &record)?;
    Ok((net, record, order))
}

fn write(out: &mut [u8], text: &str) -> usize {
    out[..text.len()].copy_from_slice(text.as_bytes());
    text.len()
}

fn try_build(requests: Requests, net: &[u8], log: &[u8], out: &mut [u8]) -> Result<Answer, Refusal> {
    room(out.len(), RECORD_ROOM, 20)?;
    let net = net::read(requests, net)?;
    let run = run::read(&net, log)?;
    let written = write(out, &run.record(&net).text());
    Ok(Answer::gives(written, 0, 0))
}

fn try_check(requests: Requests, net: &[u8], record: &[u8], table: &mut [u8]) -> Result<Answer, Refusal> {
    room(table.len(), TABLE_ROOM, 30)?;
    let (_, record, order) = accepted(requests, net, record)?;
    table[..TABLE_ROOM].fill(0);
    for e in 0..order.events() {
        for f in 0..order.events() {
            table[EVENTS * e + f] = order.entry(e, f);
        }
    }
    Ok(Answer::gives(record.events.len(), record.conditions.len(), order.independent_pairs(requests)))
}

fn try_replay(requests: Requests, net: &[u8], record: &[u8], arrangement: &[u8], rows: &mut [u16]) -> Result<Answer, Refusal> {
    room(rows.len(), ROWS_ROOM, 40)?;
    let (_, record, order) = accepted(requests, net, record)?;
    let lines = replaying::read(requests, &order, arrangement)?;
    rows[..ROWS_ROOM].fill(0);
    for (k, row) in replaying::rows(&record, &lines).iter().enumerate() {
        rows[PLACES * k..PLACES * (k + 1)].copy_from_slice(row);
    }
    Ok(Answer::gives(lines.len(), 0, 0))
}

fn try_arrange(requests: Requests, net: &[u8], record: &[u8], out: &mut [u8]) -> Result<Answer, Refusal> {
    room(out.len(), ARRANGEMENT_ROOM, 50)?;
    let (_, _, order) = accepted(requests, net, record)?;
    let lines = arranging::lines(&order);
    let written = write(out, &arranging::text(&lines));
    Ok(Answer::gives(written, lines.len(), 0))
}

fn try_energy(requests: Requests, net: &[u8], record: &[u8], energy: &[u8]) -> Result<Answer, Refusal> {
    let (net, record, _) = accepted(requests, net, record)?;
    let figures = energy::read(&net, energy)?;
    Ok(Answer::energies(figures.energies(&record)))
}

pub struct Simulator {
    requests: Requests,
}

/// With every request taken in: what the library is held to.
pub const SIMULATOR: Simulator = Simulator { requests: Requests::ALL };

/// As it was before each request that adds to the texts: what the library is held to where no text makes use of that one or a
/// later one. Before the first it is document 01 with 2026-04, which changes the answers to old inputs too.
pub const BEFORE: [Simulator; 3] = [Simulator { requests: Requests::BEFORE[0] }, Simulator { requests: Requests::BEFORE[1] }, Simulator { requests: Requests::BEFORE[2] }];

/// As it is now but for one of the line ends.
#[cfg(test)]
pub const WITHOUT_RETURNS: Simulator = Simulator { requests: Requests::WITHOUT_RETURNS };

impl Subject for Simulator {
    fn name(&self) -> &'static str {
        match self.requests {
            Requests::ALL => "simulator",
            Requests { free_to_swap: false, .. } => "simulator with the pairs of document 01",
            Requests { weights: true, .. } => "simulator without carriage returns",
            Requests { carriage_returns: true, .. } => "simulator without weights",
            Requests { read_arcs: true, .. } => "simulator without carriage returns and weights",
            _ => "simulator without read arcs, carriage returns and weights",
        }
    }

    fn read_net(&self, net: &[u8]) -> Answer {
        answer(net::read(self.requests, net).map(|net| Answer::gives(net.tokens.len(), net.transitions.len(), 0)))
    }

    fn build(&self, net: &[u8], log: &[u8], out: &mut [u8]) -> Answer {
        answer(try_build(self.requests, net, log, out))
    }

    fn check(&self, net: &[u8], record: &[u8], table: &mut [u8]) -> Answer {
        answer(try_check(self.requests, net, record, table))
    }

    fn replay(&self, net: &[u8], record: &[u8], arrangement: &[u8], rows: &mut [u16]) -> Answer {
        answer(try_replay(self.requests, net, record, arrangement, rows))
    }

    fn arrange(&self, net: &[u8], record: &[u8], out: &mut [u8]) -> Answer {
        answer(try_arrange(self.requests, net, record, out))
    }

    fn energy(&self, net: &[u8], record: &[u8], energy: &[u8]) -> Answer {
        answer(try_energy(self.requests, net, record, energy))
    }

    fn refused_line(&self, net: &[u8], second: &[u8], choice: u8, line: u64) -> Answer {
        answer(refused::find(self.requests, net, second, choice, line))
    }

    fn program(&self, input: &[u8], out: &mut [u8; PROGRAM_ROOM]) -> Answer {
        program::run(self.requests, input, out)
    }
}
