//! The closed order, by search. A walk is followed through states (event, was there a strict pair yet?): f is reached
//! strictly from e when the state (f, yes) is reached from (e, no). A state search covers walks that go round a cycle too.

use super::{Requests, EVENTS};

#[derive(Clone, Copy, Debug, PartialEq, Eq, PartialOrd, Ord)]
pub struct Pair {
    pub from: usize,
    pub to: usize,
    pub strict: bool,
}

/// For each event, what its walks of one pair or more reach: a bit for each event reached.
pub struct Order {
    strictly: Vec<u128>,
    anyhow: Vec<u128>,
}

impl Order {
    pub fn close(events: usize, pairs: &[Pair]) -> Order {
        assert!(events <= EVENTS, "a bit for each event");
        let successors = successors(events, pairs);
        let walks: Vec<(u128, u128)> = (0..events).map(|from| walk(&successors, from)).collect();
        Order { strictly: walks.iter().map(|walk| walk.0).collect(), anyhow: walks.iter().map(|walk| walk.0 | walk.1).collect() }
    }

    pub fn events(&self) -> usize {
        self.anyhow.len()
    }

    pub fn strictly_before(&self, e: usize, f: usize) -> bool {
        self.strictly[e] >> f & 1 == 1
    }

    pub fn not_later(&self, e: usize, f: usize) -> bool {
        e != f && self.anyhow[e] >> f & 1 == 1
    }

    /// The check's table at row e, column f.
    pub fn entry(&self, e: usize, f: usize) -> u8 {
        match (self.strictly_before(e, f), self.not_later(e, f)) {
            (true, _) => 2,
            (false, true) => 1,
            (false, false) => 0,
        }
    }

    /// Unordered pairs of two different events, neither strictly before the other, nor not later than it (02, 2026-04).
    pub fn independent_pairs(&self, requests: Requests) -> usize {
        let ordered = |e: usize, f: usize| self.strictly_before(e, f) || requests.free_to_swap && self.not_later(e, f);
        let free = |e: usize, f: usize| !ordered(e, f) && !ordered(f, e);
        (0..self.events()).map(|f| (0..f).filter(|e| free(*e, f)).count()).sum()
    }
}

fn successors(events: usize, pairs: &[Pair]) -> Vec<Vec<(usize, bool)>> {
    let mut sorted = pairs.to_vec();
    sorted.sort_unstable();
    sorted.dedup();
    let mut successors = vec![Vec::new(); events];
    for pair in sorted {
        successors[pair.from].push((pair.to, pair.strict));
    }
    successors
}

/// The events reached from `from` by a walk with a strict pair, and those reached by one without.
fn walk(successors: &[Vec<(usize, bool)>], from: usize) -> (u128, u128) {
    let (mut strictly, mut weakly) = (0u128, 0u128);
    let mut waiting = vec![(from, false)];
    while let Some((event, met)) = waiting.pop() {
        for (next, strict) in &successors[event] {
            let met = met || *strict;
            let seen = if met { &mut strictly } else { &mut weakly };
            if *seen >> next & 1 == 0 {
                *seen |= 1 << next;
                waiting.push((*next, met));
            }
        }
    }
    (strictly, weakly)
}
