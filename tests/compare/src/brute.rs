//! Demand 3 and independent pairs (02, 2026-04) by brute force: small nets, runs of up to five events, and every arrangement of
//! the events. The clauses are judged against a subject by what is written here and in `model` alone; nothing of the simulator is
//! asked.

#[cfg(test)]
mod faults;
mod runs;
mod trial;

use crate::case::Subject;
use crate::gen::{self, Size};
use crate::model::{NetPlan, RecordPlan};
use crate::rng::Rng;
use std::collections::BTreeMap;
use trial::{Failure, Trial};

pub struct Plan {
    /// Nets of which every run is judged.
    pub nets: usize,
    /// Nets of which one run is judged, with records that are not built ones.
    pub runs: usize,
    pub seed: u64,
}

/// What is judged: the clauses of demand 3, the exactness that they rest on, and what independent pairs are.
#[derive(Clone, Copy, Debug, PartialEq, Eq, PartialOrd, Ord)]
pub enum Clause {
    Placed,
    Keeps,
    Least,
    Enabled,
    Replayed,
    Markings,
    SameEnd,
    Strict,
    NotLater,
    Swapped,
    Accepted,
    Own,
    Process,
    Counted,
    Built,
    Rest,
}

impl Clause {
    pub const ALL: [(Clause, &'static str); 16] = [
        (Clause::Placed, "the arrangement written puts each event into one of its steps, none of them empty"),
        (Clause::Keeps, "the arrangement written keeps the order"),
        (Clause::Least, "the returned count is that of its steps, and no arrangement that keeps the order has fewer"),
        (Clause::Enabled, "an arrangement that keeps the order is an enabled step sequence"),
        (Clause::Replayed, "replay accepts the arrangements that keep the order, and no other"),
        (Clause::Markings, "replay writes the markings of the step sequence"),
        (Clause::SameEnd, "all arrangements that keep the order end in the same marking"),
        (Clause::Strict, "2 in the table exactly where earlier in every arrangement"),
        (Clause::NotLater, "1 or 2 in the table exactly where later in none"),
        (Clause::Swapped, "two events are an independent pair, with 0 twice, exactly where each is first in some arrangement and both are in one step of some"),
        (Clause::Accepted, "the record built from an enabled step sequence is accepted"),
        (Clause::Own, "an enabled step sequence is among the arrangements that keep its record's order"),
        (Clause::Process, "39 exactly where no arrangement keeps the pairs"),
        (Clause::Counted, "36 at the lowest event that has other than its arcs' weights of conditions at a place, and nowhere else"),
        (Clause::Built, "exactly the enabled step sequences are built, and 24 or 25 says why not"),
        (Clause::Rest, "the rest of the table is 0, and the counts of events and conditions"),
    ];
}

#[derive(Default)]
pub struct Counts {
    runs: usize,
    records: usize,
    /// Records accepted that have R marks.
    reading: usize,
    /// Records accepted with events that have two conditions of a place or more.
    weighted: usize,
    /// Records accepted that have two events which no arrangement parts.
    looped: usize,
    cyclic: usize,
    arrangements: usize,
    keeping: usize,
    /// How often each clause was judged.
    judged: BTreeMap<Clause, usize>,
}

/// After so many failures nothing more is run.
const ENOUGH: usize = 5;

/// Did every clause hold, and was each judged?
pub fn brute(subject: &dyn Subject, plan: &Plan) -> bool {
    let mut counts = Counts::default();
    let mut failures = judge(subject, plan, &mut counts);
    failures.truncate(ENOUGH);
    for (source, failure) in &failures {
        println!("FAILED ({source}): {failure}");
    }
    for (clause, words) in Clause::ALL {
        println!("{:>9} times: {words}", counts.judged.get(&clause).unwrap_or(&0));
    }
    println!(
        "brute ({}): every run of {} nets and one of {}: {} runs, {} records accepted ({} with readers, {} with weights, {} with loops) and {} cyclic, {} arrangements of which {} keep the order, {} failed",
        subject.name(),
        plan.nets,
        plan.runs,
        counts.runs,
        counts.records,
        counts.reading,
        counts.weighted,
        counts.looped,
        counts.cyclic,
        counts.arrangements,
        counts.keeping,
        failures.len()
    );
    failures.is_empty() && counts.judged.len() == Clause::ALL.len() && counts.weighted > 0
}

/// The failures, each with where it comes from.
fn judge(subject: &dyn Subject, plan: &Plan, counts: &mut Counts) -> Vec<(String, Failure)> {
    let mut failures = Vec::new();
    let kinds: [(&str, usize, Judge); 2] = [("net", plan.nets, every_run), ("run", plan.runs, one_run)];
    for (kind, count, judge) in kinds {
        for number in 0..count {
            if failures.len() == ENOUGH {
                return failures;
            }
            let mut rng = Rng::for_round(plan.seed, number as u64);
            let failure = judge(subject, &mut rng, counts).err();
            failures.extend(failure.map(|failure| (format!("seed {}, {kind} {number}", plan.seed), failure)));
        }
    }
    failures
}

type Judge = fn(&dyn Subject, &mut Rng, &mut Counts) -> Result<(), Failure>;

const SIZE: Size = Size { places: 6, transitions: 5, tokens: 2, events: 5, step: 3, reads: true, weights: true };

/// Every run of up to five events of a net, each with the record built from it, and the steps that are not enabled.
fn every_run(subject: &dyn Subject, rng: &mut Rng, counts: &mut Counts) -> Result<(), Failure> {
    let (net, all) = runs::net_and_runs(rng, SIZE);
    let text = net.text();
    let mut trial = Trial { subject, net: &net, net_text: &text, rng, counts };
    let mut seen = BTreeMap::new();
    for steps in &all {
        let built = trial.build(steps)?;
        if !seen.contains_key(&built) {
            let record = RecordPlan::read(&built);
            trial.record(&built, &record, true)?;
            other_reads(&mut trial, &record)?;
            other_counts(&mut trial, &record)?;
            seen.insert(built.clone(), record);
        }
        trial.own_sequence(&built, &seen[&built], steps)?;
        trial.steps_after(steps, &runs::steps_of(&net, 2))?;
    }
    Ok(())
}

/// A net, a run of it with its events in any order in a step, its record and some changed ones.
fn one_run(subject: &dyn Subject, rng: &mut Rng, counts: &mut Counts) -> Result<(), Failure> {
    let (net, steps) = if rng.chance(20) { rings_and_run(rng) } else { longest_of_four(rng) };
    let text = net.text();
    let mut trial = Trial { subject, net: &net, net_text: &text, rng, counts };
    let built = trial.build(&steps)?;
    let record = RecordPlan::read(&built);
    trial.record(&built, &record, true)?;
    trial.own_sequence(&built, &record, &steps)?;
    for _ in 0..3 {
        let mut changed = record.clone();
        gen::change(trial.rng, &mut changed);
        trial.record(&changed.text(), &changed, false)?;
    }
    other_counts(&mut trial, &record)?;
    let more: Vec<Vec<usize>> = (0..5).map(|_| any_step(trial.rng, &net)).collect();
    trial.steps_after(&steps, &more)
}

/// The record with a condition at another event, or at none, a few times: an event has one more or fewer of a place, or two events
/// have exchanged theirs.
fn other_counts(trial: &mut Trial, record: &RecordPlan) -> Result<(), Failure> {
    for _ in 0..3 {
        let mut changed = record.clone();
        gen::weights::break_count(trial.rng, &mut changed);
        trial.record(&changed.text(), &changed, false)?;
    }
    Ok(())
}

/// The record with one R mark on each other condition of its place, up to a few: a process of the same events that may have
/// another order, or no process.
fn other_reads(trial: &mut Trial, record: &RecordPlan) -> Result<(), Failure> {
    let reads = (0..record.marks.len()).filter(|at| record.marks[*at].letter == 'R');
    let place = |condition: usize| record.conditions[condition].place;
    let all = reads.flat_map(|at| (0..record.conditions.len()).map(move |condition| (at, condition)));
    let mut others: Vec<(usize, usize)> = all.filter(|(at, c)| *c != record.marks[*at].condition && place(*c) == place(record.marks[*at].condition)).collect();
    trial.rng.shuffle(&mut others);
    for (at, condition) in others.into_iter().take(4) {
        let mut changed = record.clone();
        changed.marks[at].condition = condition;
        trial.record(&changed.text(), &changed, false)?;
    }
    Ok(())
}

fn any_step(rng: &mut Rng, net: &NetPlan) -> Vec<usize> {
    (0..rng.between(1, 3)).map(|_| rng.below(net.transitions())).collect()
}

/// Loops of events, which other nets seldom have.
fn rings_and_run(rng: &mut Rng) -> (NetPlan, Vec<Vec<usize>>) {
    let rings = gen::loops::rings(rng, SIZE.transitions, SIZE.events);
    (rings.net(), rings.steps(|| rng.chance(70)))
}

/// Runs of one event or none show little: a few are made, and the longest taken.
fn longest_of_four(rng: &mut Rng) -> (NetPlan, Vec<Vec<usize>>) {
    let made = (0..4).map(|_| {
        let net = gen::net(rng, SIZE);
        let steps = gen::play(rng, &net, SIZE);
        (net, steps)
    });
    made.max_by_key(|(_, steps)| steps.iter().flatten().count()).expect("four of them")
}

#[cfg(test)]
mod tests {
    use super::*;
    use crate::sim::SIMULATOR;

    #[test]
    fn simulator_meets_demand_3() {
        assert!(brute(&SIMULATOR, &Plan { nets: 10, runs: 60, seed: 3 }));
    }
}
