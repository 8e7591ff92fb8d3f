//! Seeded cases. A round makes a net, a log, a record and an arrangement that belong together, mostly sound and now and
//! then damaged, and gives a case of every operation on them.

mod arrangements;
mod damage;
pub mod energy;
mod logs;
pub mod loops;
mod nets;
mod readers;
mod records;
mod returns;
pub mod weights;

use crate::case::{run, Case, Operation};
use crate::model::{log_text, NetPlan};
use crate::rng::Rng;
use crate::sim::{Requests, SIMULATOR, LONGEST_INPUT, RECORD_ROOM};

pub use damage::{damage, BYTES, NUMBERS};
pub use logs::play;
pub use nets::net;
pub use records::change;
pub use returns::{every_end, two_endings};
pub use weights::two_spellings;

/// How large the nets and runs of a round are at most.
#[derive(Clone, Copy)]
pub struct Size {
    pub places: usize,
    pub transitions: usize,
    /// At one place.
    pub tokens: usize,
    pub events: usize,
    /// Events of a step.
    pub step: usize,
    /// Whether there are read arcs, and weights. Without them the same draws give the same cases as before there were any.
    pub reads: bool,
    pub weights: bool,
}

pub const SMALL: Size = Size { places: 6, transitions: 5, tokens: 3, events: 8, step: 3, reads: true, weights: true };
const MEDIUM: Size = Size { places: 12, transitions: 10, tokens: 9, events: 40, step: 6, reads: true, weights: true };
const LARGE: Size = Size { places: 32, transitions: 32, tokens: 60, events: 135, step: 40, reads: true, weights: true };
/// For `nets::store`, whose runs pass the limits only with long steps.
const STORE: Size = Size { places: 4, transitions: 4, tokens: 512, events: 132, step: 70, reads: true, weights: true };

/// Mostly small, since the many kinds of mistakes show there and a small case costs little.
fn net_and_log(rng: &mut Rng, requests: Requests) -> (NetPlan, Size, Vec<Vec<usize>>) {
    let Requests { read_arcs: reads, weights, .. } = requests;
    let kind = rng.below(400);
    let size = match kind {
        0 => LARGE,
        1..=3 => STORE,
        4..=11 => MEDIUM,
        12..=13 if reads => STORE,
        14..=16 if weights => STORE,
        _ => SMALL,
    };
    let size = Size { reads, weights, ..size };
    if size.weights && (14..=16).contains(&kind) {
        let (plan, steps) = weights::at_the_limit(rng);
        return (plan, size, steps);
    }
    let plan = match kind {
        1..=3 => nets::store(rng),
        12..=13 if reads => readers::store(rng),
        _ => nets::net(rng, size),
    };
    let steps = match kind {
        1..=2 => logs::at_the_limit(rng, &plan),
        12 if reads => readers::at_the_limit(rng, &plan),
        _ => logs::log(rng, &plan, size),
    };
    (plan, size, steps)
}

/// The cases of a round.
pub fn round(rng: &mut Rng) -> Vec<Case> {
    round_with(rng, Requests::ALL)
}

/// A round as it was when these requests were taken in and no other. Loops and energy texts come after all else, and byte 13 is put
/// in last, so that the draws before them stay. Energies are an operation of their own, which nothing older makes use of; so there
/// are cases of it in every round.
pub fn round_with(rng: &mut Rng, requests: Requests) -> Vec<Case> {
    let mut cases = cases(rng, requests);
    if requests.free_to_swap && rng.chance(15) {
        cases.extend(loops::cases(rng));
    }
    let energies = energy::cases(rng, &cases);
    cases.extend(energies);
    if requests.carriage_returns {
        cases.iter_mut().for_each(|case| returns::put(rng, case));
    }
    cases
}

fn cases(rng: &mut Rng, requests: Requests) -> Vec<Case> {
    let (plan, size, steps) = net_and_log(rng, requests);
    let sound = nets::text(rng, &plan);
    let net = maybe_net(rng, 4, &sound, requests);
    let log = maybe(rng, 8, &log_text(&steps));
    let proposed = proposal(rng, &plan, &sound, size);
    let record = maybe(rng, 6, &proposed);
    let mut cases = vec![
        Case::new(Operation::ReadNet, &[&maybe_net(rng, 50, &sound, requests)]),
        Case::new(Operation::Build, &[&net, &log]),
        Case::new(Operation::Check, &[&net, &record]),
        Case::new(Operation::Arrange, &[&net, &record]),
        Case::new(Operation::Program, &[&input(rng, &net, &log)]),
        asked_line(rng, &net, &log),
    ];
    for _ in 0..2 {
        let arrangement = arrangements::arrangement(rng, &sound, &proposed);
        let arrangement = maybe(rng, 6, &arrangement);
        cases.push(Case::new(Operation::Replay, &[&net, &record, &arrangement]));
    }
    if requests.read_arcs && rng.chance(20) {
        cases.extend(readers::read_and_inhibited(rng, &plan, &proposed));
    }
    cases.iter_mut().for_each(|case| case.room = room(rng, case.operation));
    cases
}

/// The text, damaged with the given chance.
fn maybe(rng: &mut Rng, percent: usize, text: &[u8]) -> Vec<u8> {
    if rng.chance(percent) {
        return damage(rng, text);
    }
    text.to_vec()
}

/// The net text, with the given chance damaged or with lines put in that are refused.
fn maybe_net(rng: &mut Rng, percent: usize, text: &[u8], requests: Requests) -> Vec<u8> {
    match rng.chance(percent) {
        true if requests.weights && rng.chance(30) => weights::refused_text(rng, text),
        true if requests.read_arcs && rng.chance(25) => readers::refused_text(rng, text),
        true if rng.chance(50) => nets::refused_text(rng, text),
        true => damage(rng, text),
        false => text.to_vec(),
    }
}

/// A record for the net: built from a run of it, and in most rounds changed after.
fn proposal(rng: &mut Rng, plan: &NetPlan, net: &[u8], size: Size) -> Vec<u8> {
    let steps = logs::play(rng, plan, size);
    let record = build(net, &log_text(&steps)).unwrap_or_default();
    records::propose(rng, plan, &record, size)
}

/// The record of the log, if the simulator builds one.
pub fn build(net: &[u8], log: &[u8]) -> Option<Vec<u8>> {
    let case = Case::new(Operation::Build, &[net, log]).with_room(RECORD_ROOM);
    let mut outcome = run(&SIMULATOR, &case);
    let written = outcome.answer.a as usize;
    outcome.answer.accepted().then(|| crate::case::lent(&mut outcome.bytes)[..written].to_vec())
}

fn input(rng: &mut Rng, net: &[u8], log: &[u8]) -> Vec<u8> {
    let parting: &[u8] = match rng.below(30) {
        0 => b"",
        1 => b"=",
        2 => b"==\n",
        3 => b"=\n=\n",
        _ => b"=\n",
    };
    let mut input = [net, parting, log].concat();
    if rng.below(200) == 0 {
        fill_up(rng, &mut input);
    }
    input
}

/// A last line that makes the input as long as it may be, or one byte more or less.
fn fill_up(rng: &mut Rng, input: &mut Vec<u8>) {
    let length = rng.between(LONGEST_INPUT - 1, LONGEST_INPUT + 1);
    input.extend(b"S,0");
    input.resize(length.max(input.len()) - 1, b',');
    input.push(10);
}

fn asked_line(rng: &mut Rng, net: &[u8], second: &[u8]) -> Case {
    let choice = rng.pick(&[0, 0, 1, 1, 1, 2, 255]);
    let text = if choice == 0 { net } else { second };
    let lines = text.iter().filter(|byte| **byte == 10).count();
    let line = match rng.below(12) {
        0 => 0,
        1 => rng.next(),
        2 => lines as u64 + 2,
        _ => rng.between(0, lines + 1) as u64,
    };
    Case::new(Operation::RefusedLine, &[net, second]).asking(choice, line)
}

/// Mostly the stated size.
fn room(rng: &mut Rng, operation: Operation) -> usize {
    let stated = operation.stated_room();
    match rng.below(50) {
        _ if !operation.any_room() => stated,
        0 => stated - 1,
        1 => rng.below(stated),
        2 | 3 => stated + 1,
        4 => stated + rng.below(1_000),
        _ => stated,
    }
}
