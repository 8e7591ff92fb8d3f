//! Nets whose runs have weak loops: events that are each not later than the other. Independent pairs (02, 2026-04) are counted
//! around them, and the other generators seldom make more than one.

use super::{arrangements, build, nets, records};
use crate::case::{Case, Operation};
use crate::model::{log_text, NetPlan, RecordPlan};
use crate::rng::Rng;

/// How a ring is ordered with the one behind it.
#[derive(Clone, Copy, Debug, PartialEq, Eq)]
pub enum Link {
    Apart,
    NotLater,
    Before,
}

/// Transitions in rings, each inhibited by the place that the next one of its ring fills: in a run all events of a ring are in
/// one step, and each is not later than all others. Of a ring of one transition that holds too, which watches its own place.
pub struct Rings {
    /// The transitions of each ring.
    pub sizes: Vec<usize>,
    /// Of each ring but the last with the next.
    pub links: Vec<Link>,
    /// Events of each transition.
    pub times: usize,
}

impl Rings {
    /// The first transition of a ring.
    fn first(&self, ring: usize) -> usize {
        self.sizes[..ring].iter().sum()
    }

    /// Place 0 is a store, and transition t fills place t + 1. Where a ring is before the next one, that one's first transition
    /// takes from the place that its own first one fills.
    pub fn net(&self) -> NetPlan {
        let transitions = self.first(self.sizes.len());
        let mut net = NetPlan { tokens: vec![0; transitions + 1], inputs: vec![1; transitions], reads: vec![0; transitions], ..NetPlan::default() };
        net.tokens[0] = self.times * transitions;
        net.outputs = (0..transitions).map(|t| 2 << t).collect();
        for (ring, size) in self.sizes.iter().enumerate() {
            let first = self.first(ring);
            net.inhibitors.extend((0..*size).map(|k| 2 << (first + (k + 1) % size)));
        }
        for (ring, link) in self.links.iter().enumerate() {
            let (first, next) = (self.first(ring), self.first(ring + 1));
            match link {
                Link::Apart => {}
                Link::NotLater => net.inhibitors[first] |= 2 << next,
                Link::Before => net.inputs[next] = 2 << first,
            }
        }
        net
    }

    /// A run: each ring in the step of the one in front of it, if that is asked for and may be, else in one of its own.
    pub fn steps(&self, mut together: impl FnMut() -> bool) -> Vec<Vec<usize>> {
        let mut steps: Vec<Vec<usize>> = Vec::new();
        for (ring, size) in self.sizes.iter().enumerate() {
            let events = (0..self.times).flat_map(|_| (0..*size).map(|k| self.first(ring) + k));
            let parted = ring == 0 || self.links[ring - 1] == Link::Before;
            if parted || !together() {
                steps.push(Vec::new());
            }
            steps.last_mut().expect("the first ring begins one").extend(events);
        }
        steps
    }
}

/// Of up to so many transitions (at least four) and events.
pub fn rings(rng: &mut Rng, transitions: usize, events: usize) -> Rings {
    let (sizes, links) = if rng.chance(10) { as_many_followers(rng, transitions) } else { any_rings(rng, transitions) };
    let times = rng.between(1, (events / sizes.iter().sum::<usize>()).clamp(1, 32));
    Rings { sizes, links, times }
}

/// Two rings apart, and one of a single transition that the second, which has a transition less, is not later than: events of
/// both have as many followers. A count that knows loops by that takes them for one.
fn as_many_followers(rng: &mut Rng, transitions: usize) -> (Vec<usize>, Vec<Link>) {
    let size = rng.between(2, transitions / 2);
    (vec![size, size - 1, 1], vec![Link::Apart, Link::NotLater])
}

/// Often of one size, for a count that knows loops by their size.
fn any_rings(rng: &mut Rng, transitions: usize) -> (Vec<usize>, Vec<Link>) {
    let alike = rng.chance(60);
    let kinds: &[Link] = rng.pick(&[&[Link::Apart][..], &[Link::NotLater], &[Link::Apart, Link::NotLater], &[Link::Apart, Link::NotLater, Link::Before]]);
    let most = transitions / 2;
    let size = rng.between(1, most);
    let mut sizes = vec![size];
    while rng.chance(80) {
        let next = if alike { size } else { rng.between(1, most) };
        if sizes.iter().sum::<usize>() + next > transitions {
            break;
        }
        sizes.push(next);
    }
    let links = sizes[1..].iter().map(|_| rng.pick(kinds)).collect();
    (sizes, links)
}

/// Rings, mostly few, and a record of a run of them, in most cases changed.
pub fn cases(rng: &mut Rng) -> Vec<Case> {
    let (transitions, events) = if rng.chance(5) { (31, 128) } else { (7, 14) };
    let rings = rings(rng, transitions, events);
    let mut steps = rings.steps(|| rng.chance(70));
    steps.iter_mut().for_each(|step| rng.shuffle(step));
    let (net, log) = (nets::text(rng, &rings.net()), log_text(&steps));
    let mut cases = vec![Case::new(Operation::Program, &[&[&net[..], b"=\n", &log].concat()])];
    let Some(built) = build(&net, &log) else {
        return cases;
    };
    let mut plan = RecordPlan::read(&built);
    if rng.chance(70) {
        records::change(rng, &mut plan);
    }
    let record = plan.text();
    let arrangement = arrangements::arrangement(rng, &net, &record);
    cases.push(Case::new(Operation::Check, &[&net, &record]));
    cases.push(Case::new(Operation::Arrange, &[&net, &record]));
    cases.push(Case::new(Operation::Replay, &[&net, &record, &arrangement]));
    cases
}

#[cfg(test)]
mod tests {
    use super::*;
    use crate::case::{lent, run};
    use crate::gen::round_with;
    use crate::sim::{Requests, EVENTS, SIMULATOR};

    /// The loops of two events or more of an accepted record, by its table.
    fn loops(events: usize, table: &[u8]) -> Vec<Vec<usize>> {
        let same = |e: usize, f: usize| e == f || table[EVENTS * e + f] == 1 && table[EVENTS * f + e] == 1;
        let lowest = (0..events).filter(|e| !(0..*e).any(|f| same(*e, f)));
        lowest.map(|e| (e..events).filter(|f| same(e, *f)).collect::<Vec<usize>>()).filter(|members| members.len() > 1).collect()
    }

    /// What is met in a record: a loop, one of three or more, one of fifty or more, two loops, two of one size, two of one size
    /// with as many followers, two of other sizes with as many, two of which one is not later or before, and a loop beside events
    /// that are on none.
    fn met(events: usize, table: &[u8]) -> [bool; 9] {
        let loops = loops(events, table);
        let followers = |e: usize| table[EVENTS * e..][..events].iter().filter(|entry| **entry > 0).count();
        let two = |holds: &dyn Fn(&[usize], &[usize]) -> bool| loops.iter().enumerate().any(|(at, one)| loops[..at].iter().any(|other| holds(one, other) || holds(other, one)));
        [
            !loops.is_empty(),
            loops.iter().any(|members| members.len() > 2),
            loops.iter().any(|members| members.len() >= 50),
            loops.len() > 1,
            two(&|one, other| one.len() == other.len()),
            two(&|one, other| one.len() == other.len() && followers(one[0]) == followers(other[0])),
            two(&|one, other| one.len() != other.len() && followers(one[0]) == followers(other[0])),
            two(&|one, other| table[EVENTS * one[0] + other[0]] > 0),
            !loops.is_empty() && loops.iter().flatten().count() < events,
        ]
    }

    /// Records with loops are met, with several, with several of one size, with loops in chains, and with large ones.
    #[test]
    fn generator_meets_loops() {
        for requests in [Requests::ALL, Requests::BEFORE[0]] {
            let mut count = [0; 9];
            for case in (0..20_000).flat_map(|round| round_with(&mut Rng::for_round(19, round), requests)) {
                if case.operation == Operation::Check {
                    let mut found = run(&SIMULATOR, &case);
                    if found.answer.accepted() {
                        let kinds = met(found.answer.a as usize, lent(&mut found.bytes));
                        kinds.iter().zip(&mut count).for_each(|(met, count)| *count += *met as usize);
                    }
                }
            }
            // Large loops are costly, so they are few.
            assert!(count.iter().enumerate().all(|(kind, count)| *count > if kind == 2 { 20 } else { 100 }), "{count:?}");
        }
    }
}
