//! The comparison: a subject, the library, against the vectors and against a reference, the simulator.

use crate::answer::Answer;
use crate::case::{difference, run, Case, Operation, Outcome, Subject};
use crate::rng::Rng;
use crate::sim::Requests;
use crate::{corpus, gen, vectors};
use std::collections::{BTreeMap, BTreeSet};

/// Where cases come from.
#[derive(Clone, Copy, Debug, PartialEq, Eq)]
pub enum Source {
    Vectors,
    Fixed,
    Generated,
    /// By the generators as they were before each request of document 02 that adds to the texts, by turns.
    Base,
    /// Without byte 13, each case with two choices of line ends.
    Endings,
    /// Each case with the weight 1 left out and written on some arcs of its net.
    Ones,
}

impl Source {
    pub const ALL: [Source; 6] = [Source::Vectors, Source::Fixed, Source::Generated, Source::Base, Source::Endings, Source::Ones];
    /// For the peer, which has document 01 with 2026-04, 2026-05 and 2026-06: all that there is without lines `R` and byte 13.
    pub const OF_PEER: [Source; 3] = [Source::Vectors, Source::Fixed, Source::Base];

    pub fn name(self) -> &'static str {
        ["vectors", "fixed", "generated", "base", "endings", "ones"][self as usize]
    }
}

/// What a subject is held to: with the requests of document 02, and, on cases that make no use of a request and the later ones,
/// as it was before that request.
#[derive(Clone, Copy)]
pub struct Reference<'a> {
    pub now: &'a dyn Subject,
    pub before: [&'a dyn Subject; Requests::BEFORE.len()],
}

pub struct Plan {
    pub sources: Vec<Source>,
    /// Generated cases, besides the others. By earlier generators there are a quarter as many, or as many for the peer, which has
    /// no others; with two choices of line ends a tenth, and as many with the weight 1 left out and written.
    pub cases: usize,
    pub seed: u64,
    /// After so many differences nothing more is run.
    pub enough: usize,
    /// Say each round before it is run: for a library that never comes back.
    pub trace: bool,
}

/// The refusal that a net without lines `R` never meets.
const OF_READ_ARCS: u64 = 51;

/// How often an answer came, and some of its spots.
#[derive(Default)]
struct Met {
    count: usize,
    spots: BTreeSet<u64>,
}

struct Comparison<'a> {
    subject: &'a dyn Subject,
    reference: Reference<'a>,
    plan: &'a Plan,
    cases: usize,
    differences: usize,
    /// The subject's answers by operation and number; 0 is accepted.
    met: BTreeMap<(Operation, u64), Met>,
    /// How often an operation accepted what has a net with weights.
    weighted: BTreeMap<Operation, usize>,
}

/// Did all cases agree, and, where there were cases of every source, was every refusal met?
pub fn compare(subject: &dyn Subject, reference: Reference, plan: &Plan) -> bool {
    let mut comparison = Comparison::new(subject, reference, plan);
    for source in &plan.sources {
        let before = comparison.cases;
        match source {
            Source::Vectors => comparison.vectors(),
            Source::Fixed => comparison.fixed(),
            Source::Generated => comparison.rounds(),
            Source::Base => comparison.base_rounds(),
            Source::Endings => comparison.endings(),
            Source::Ones => comparison.ones(),
        }
        println!("{}: {} cases", source.name(), comparison.cases - before);
    }
    comparison.report()
}

impl<'a> Comparison<'a> {
    fn new(subject: &'a dyn Subject, reference: Reference<'a>, plan: &'a Plan) -> Comparison<'a> {
        Comparison { subject, reference, plan, cases: 0, differences: 0, met: BTreeMap::new(), weighted: BTreeMap::new() }
    }

    /// Is the subject the peer? Then cases that make use of a request that it has not are left out.
    fn of_peer(&self) -> bool {
        self.plan.sources == Source::OF_PEER
    }

    /// Is the case one that the subject knows of?
    fn takes(&self, case: &Case) -> bool {
        !self.of_peer() || case.within(Requests::OF_PEER)
    }

    fn done(&self) -> bool {
        self.differences >= self.plan.enough
    }

    /// The subject against the answers written out, and against the reference.
    fn vectors(&mut self) {
        for vector in vectors::all() {
            if self.done() {
                return;
            }
            if !self.takes(&vector.case) {
                continue;
            }
            let found = run(self.subject, &vector.case);
            if let Some(what) = difference(&found, &vector.outcome()) {
                self.tell(&format!("vector '{}', {} and the vector", vector.name, self.subject.name()), &what, &vector.case);
            }
            self.one(&format!("vector '{}'", vector.name), &vector.case, self.reference.now);
        }
    }

    fn fixed(&mut self) {
        for (number, case) in corpus::all().iter().enumerate() {
            if self.takes(case) {
                self.one(&format!("fixed case {number}"), case, self.reference.now);
            }
        }
    }

    fn rounds(&mut self) {
        let before = self.cases;
        let mut round = 0;
        while self.cases < before + self.plan.cases && !self.done() {
            let mut rng = self.next_round(round);
            for case in gen::round(&mut rng) {
                self.one(&format!("seed {}, round {round}", self.plan.seed), &case, self.reference.now);
            }
            round += 1;
        }
    }

    /// What damage has made a line of a request is left out. The peer's cases have what it has; on them the reference of now gives
    /// what it would without the rest.
    fn base_rounds(&mut self) {
        let before = self.cases;
        let mut round = 0;
        let most = if self.of_peer() { self.plan.cases } else { self.plan.cases / 4 };
        while self.cases < before + most && !self.done() {
            let mut rng = self.next_round(round);
            let turn = round as usize % Requests::BEFORE.len();
            let (requests, reference) = if self.of_peer() { (Requests::OF_PEER, self.reference.now) } else { (Requests::BEFORE[turn], self.reference.before[turn]) };
            for case in gen::round_with(&mut rng, requests).iter().filter(|case| case.within(requests)) {
                self.one(&format!("seed {}, base round {round}", self.plan.seed), case, reference);
            }
            round += 1;
        }
    }

    /// The subject alone: with other line ends it gives the same answer.
    fn endings(&mut self) {
        self.twice("other line ends", gen::two_endings, |one, other| one == other);
    }

    /// The subject alone: with the weight 1 written it gives the same answer as without.
    fn ones(&mut self) {
        self.twice("weights of 1", gen::two_spellings, |one, other| one == other || [one, b",1"].concat() == other);
    }

    /// The subject alone on cases made two ways; a refused line is shown alike in both.
    fn twice(&mut self, ways: &str, pairs: fn(&mut Rng) -> Vec<(Case, Case)>, alike: fn(&[u8], &[u8]) -> bool) {
        let before = self.cases;
        let mut round = 0;
        while self.cases < before + self.plan.cases / 10 && !self.done() {
            let mut rng = self.next_round(round);
            for (plain, other) in pairs(&mut rng) {
                let found = run(self.subject, &plain);
                self.count(&plain, &found);
                if let Some(what) = other_answer((&plain, &found), (&other, &run(self.subject, &other)), alike) {
                    self.tell(&format!("seed {}, round {round}, {} with {ways}", self.plan.seed, self.subject.name()), &what, &other);
                }
            }
            round += 1;
        }
    }

    fn next_round(&self, round: u64) -> Rng {
        if self.plan.trace {
            eprintln!("round {round}");
        }
        Rng::for_round(self.plan.seed, round)
    }

    fn one(&mut self, source: &str, case: &Case, reference: &dyn Subject) {
        if self.done() {
            return;
        }
        let found = run(self.subject, case);
        self.count(case, &found);
        if difference(&found, &run(reference, case)).is_some() {
            let small = shrink(self.subject, reference, case);
            let what = differs(self.subject, reference, &small).unwrap_or_default();
            self.tell(&format!("{source}, {} and {}", self.subject.name(), reference.name()), &what, &small);
        }
    }

    fn count(&mut self, case: &Case, outcome: &Outcome) {
        let (number, spot) = outcome.refusal();
        if number == 0 && case.has_weights() {
            *self.weighted.entry(case.operation).or_default() += 1;
        }
        let met = self.met.entry((case.operation, number)).or_default();
        self.cases += 1;
        met.count += 1;
        if met.spots.len() < 2 {
            met.spots.insert(spot);
        }
    }

    fn tell(&mut self, source: &str, what: &str, case: &Case) {
        self.differences += 1;
        println!("DIFFERENCE ({source}): {what}\n{case}");
    }

    fn report(&self) -> bool {
        let mut unmet = Vec::new();
        for operation in Operation::ALL {
            let count = |number: u64| self.met.get(&(operation, number)).map_or(0, |met| met.count);
            let words = operation.refusals().iter().map(|number| format!(" {number}:{}", count(*number))).collect::<String>();
            let weighted = self.weighted.get(&operation).copied().unwrap_or(0);
            println!("{:12} accepted {} ({weighted} with weights); refused{words}", operation.name(), count(0));
            let wanted = operation.refusals().into_iter().chain([0]).filter(|number| !self.of_peer() || *number != OF_READ_ARCS);
            unmet.extend(wanted.filter(|number| !self.is_met(operation, *number)).map(|number| format!("{} {number}", operation.name())));
            unmet.extend((weighted == 0).then(|| format!("{} with weights", operation.name())));
        }
        if self.plan.sources != Source::ALL && !self.of_peer() {
            unmet.clear();
        }
        if !unmet.is_empty() {
            println!("never met, or at one spot only: {}", unmet.join(", "));
        }
        println!("compare ({}): {} cases, {} differ, {} refusals not met", self.subject.name(), self.cases, self.differences, unmet.len());
        self.differences == 0 && unmet.is_empty()
    }

    /// Did the answer come, and where it has a spot, at two spots or more?
    fn is_met(&self, operation: Operation, number: u64) -> bool {
        let spots = if [0, 10, 20, 30, 40, 50, 53].contains(&number) { 1 } else { 2 };
        self.met.get(&(operation, number)).is_some_and(|met| met.spots.len() >= spots)
    }
}

/// What differs between the outcomes of a case and of the same made another way. A refused line starts elsewhere where what stands
/// above it is longer; its bytes are alike.
fn other_answer((plain, found): (&Case, &Outcome), (other, again): (&Case, &Outcome), alike: fn(&[u8], &[u8]) -> bool) -> Option<String> {
    if plain.operation != Operation::RefusedLine || !found.answer.accepted() {
        return difference(found, again);
    }
    let part = |case: &Case, answer: Answer| case.texts[usize::from(case.choice)].get(answer.a as usize..)?.get(..answer.b as usize).map(<[u8]>::to_vec);
    let (Some(one), Some(two)) = (part(plain, found.answer), part(other, again.answer)) else {
        return Some(format!("no parts {:?} and {:?}", found.answer, again.answer));
    };
    if !alike(&one, &two) {
        return Some(format!("parts {:?} and {:?}", found.answer, again.answer));
    }
    let moved = Outcome { answer: Answer { a: found.answer.a, b: found.answer.b, ..again.answer }, ..again.clone() };
    difference(found, &moved)
}

fn differs(subject: &dyn Subject, reference: &dyn Subject, case: &Case) -> Option<String> {
    difference(&run(subject, case), &run(reference, case))
}

/// Makes a case smaller that differs: runs of lines are taken out of its texts, long ones first.
struct Shrinking<'a> {
    subject: &'a dyn Subject,
    reference: &'a dyn Subject,
    small: Case,
    /// Trials left: a case at a limit cannot be made smaller, and trying all its lines would take long.
    left: usize,
}

fn shrink(subject: &dyn Subject, reference: &dyn Subject, case: &Case) -> Case {
    let mut shrinking = Shrinking { subject, reference, small: case.clone(), left: 400 };
    for which in 0..case.texts.len() {
        let mut part = case.texts[which].len() / 2;
        while part > 0 {
            shrinking.without_parts(which, part);
            part /= 2;
        }
    }
    shrinking.small
}

impl Shrinking<'_> {
    /// Takes out whatever runs of so many lines the difference does not need.
    fn without_parts(&mut self, which: usize, part: usize) {
        let mut at = 0;
        loop {
            let lines: Vec<&[u8]> = self.small.texts[which].split_inclusive(|byte| *byte == 10).collect();
            if at >= lines.len() || part > lines.len() || self.left == 0 {
                return;
            }
            let end = lines.len().min(at + part);
            let mut tried = self.small.clone();
            tried.texts[which] = [lines[..at].concat(), lines[end..].concat()].concat();
            self.left -= 1;
            if differs(self.subject, self.reference, &tried).is_some() {
                self.small = tried;
            } else {
                at += part;
            }
        }
    }
}

#[cfg(test)]
mod tests {
    use super::*;
    use crate::case::lent;
    use crate::sim::{BEFORE, EVENTS, SIMULATOR, WITHOUT_RETURNS};

    const REFERENCE: Reference = Reference { now: &SIMULATOR, before: [&BEFORE[0], &BEFORE[1], &BEFORE[2]] };

    /// The simulator against itself: no difference, and the generator alone meets every refusal of every operation, and has each
    /// accept nets with weights.
    #[test]
    fn generator_meets_every_refusal() {
        let plan = Plan { sources: vec![Source::Generated], cases: 60_000, seed: 7, enough: 1, trace: false };
        let mut comparison = Comparison::new(&SIMULATOR, REFERENCE, &plan);
        comparison.rounds();
        comparison.base_rounds();
        assert_eq!(comparison.differences, 0);
        for operation in Operation::ALL {
            for number in operation.refusals().into_iter().chain([0]) {
                assert!(comparison.is_met(operation, number), "{} {number}", operation.name());
            }
            assert!(comparison.weighted[&operation] > 500, "{} with weights {}", operation.name(), comparison.weighted[&operation]);
        }
    }

    /// A subject that knows one line end alone is seen by other line ends in every operation, the simulator in none.
    #[test]
    fn other_line_ends_tell_subjects_apart() {
        let seen = |subject: &dyn Subject| -> BTreeSet<Operation> {
            let pairs = (0..400).flat_map(|round| gen::two_endings(&mut Rng::for_round(9, round)));
            let differs = |(plain, other): &(Case, Case)| other_answer((plain, &run(subject, plain)), (other, &run(subject, other)), |one, two| one == two).is_some();
            pairs.filter(differs).map(|(plain, _)| plain.operation).collect()
        };
        assert_eq!(seen(&SIMULATOR), BTreeSet::new());
        assert_eq!(seen(&WITHOUT_RETURNS), BTreeSet::from(Operation::ALL));
    }

    /// A subject without weights is seen by written weights of 1 in every operation that reads a net, the simulator in none.
    #[test]
    fn weights_of_1_tell_subjects_apart() {
        let seen = |subject: &dyn Subject| -> BTreeSet<Operation> {
            let pairs = (0..400).flat_map(|round| gen::two_spellings(&mut Rng::for_round(10, round)));
            let alike = |one: &[u8], two: &[u8]| one == two || [one, b",1"].concat() == two;
            let differs = |(plain, other): &(Case, Case)| other_answer((plain, &run(subject, plain)), (other, &run(subject, other)), alike).is_some();
            pairs.filter(differs).map(|(plain, _)| plain.operation).collect()
        };
        assert_eq!(seen(&SIMULATOR), BTreeSet::new());
        assert_eq!(seen(&BEFORE[2]), Operation::ALL.into_iter().filter(|operation| *operation != Operation::RefusedLine).collect());
    }

    /// Orders of every kind are met: with weak pairs only one way, both ways, strict pairs, and with none.
    #[test]
    fn generator_meets_every_kind_of_order() {
        let mut met = [0; 4];
        for round in 0..4_000 {
            let cases = gen::round(&mut Rng::for_round(8, round));
            let case = cases.iter().find(|case| case.operation == Operation::Check).expect("a case of each operation");
            let mut found = run(&SIMULATOR, case);
            let events = found.answer.a as usize;
            if found.answer.accepted() && events > 1 {
                let table = lent(&mut found.bytes);
                let pairs = (0..events).flat_map(|f| (0..f).map(move |e| (e, f)));
                let kinds = pairs.map(|(e, f)| (table[EVENTS * e + f], table[EVENTS * f + e]));
                let kinds: BTreeSet<usize> = kinds.map(|(one, other)| if one + other == 2 && one == 1 { 3 } else { one.max(other) as usize }).collect();
                kinds.iter().for_each(|kind| met[*kind] += 1);
            }
        }
        assert!(met.iter().all(|count| *count > 50), "none, weak, strict, weak both ways: {met:?}");
    }
}
