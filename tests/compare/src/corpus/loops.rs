//! Weak loops, around which independent pairs are counted (02, 2026-04): one that all events of a record are on, several of one
//! size, of several sizes, and in chains, up to the limits.

use super::around;
use crate::case::{Case, Operation};
use crate::gen::build;
use crate::gen::loops::{Link, Rings};
use crate::model::{log_text, NetPlan, RecordPlan};

pub fn add(cases: &mut Vec<Case>) {
    let sizes = [vec![31], vec![15; 2], vec![16, 15], vec![10; 3], vec![5; 6], vec![3; 10], vec![2; 15], vec![1; 31], vec![1, 2, 3, 4, 5, 6, 7], vec![7, 6, 5, 4, 3, 2, 1]];
    for sizes in sizes {
        for links in links(sizes.len()) {
            for times in [1, 4] {
                of_rings(&Rings { sizes: sizes.clone(), links: links.clone(), times }, cases);
            }
        }
    }
    // 4,096 marks and what is around: two loops of 64 events, and one.
    for times in [31, 32, 33] {
        of_rings(&Rings { sizes: vec![2, 2], links: vec![Link::Apart], times }, cases);
        of_rings(&Rings { sizes: vec![1], links: Vec::new(), times: 2 * times }, cases);
    }
    ring_of_128(cases);
}

/// Every ring with the next in the same way, and by turns.
fn links(rings: usize) -> Vec<Vec<Link>> {
    let kinds: [&[Link]; 5] = [&[Link::Apart], &[Link::NotLater], &[Link::Before], &[Link::Apart, Link::NotLater], &[Link::NotLater, Link::Before]];
    let some = kinds.iter().filter(|kinds| kinds.len() < rings.max(2));
    let mut all: Vec<Vec<Link>> = some.map(|kinds| kinds.iter().copied().cycle().take(rings - 1).collect()).collect();
    all.dedup();
    all
}

fn of_rings(rings: &Rings, cases: &mut Vec<Case>) {
    run(&rings.net(), &rings.steps(|| true), cases);
}

/// One loop of 128 events: 31 transitions in a ring, four of them with five events.
fn ring_of_128(cases: &mut Vec<Case>) {
    let ring = Rings { sizes: vec![31], links: Vec::new(), times: 4 };
    let (mut net, mut steps) = (ring.net(), ring.steps(|| true));
    net.tokens[0] = 128;
    steps[0].extend(0..4);
    run(&net, &steps, cases);
}

/// The run built and printed, its record with all that is around it, and with its events counted from the last.
fn run(net: &NetPlan, steps: &[Vec<usize>], cases: &mut Vec<Case>) {
    let (net, log) = (net.text(), log_text(steps));
    cases.push(Case::new(Operation::Build, &[&net, &log]));
    cases.push(Case::new(Operation::Program, &[&[&net[..], b"=\n", &log].concat()]));
    let Some(record) = build(&net, &log) else {
        return;
    };
    around(&net, &record, cases);
    let mut plan = RecordPlan::read(&record);
    plan.rename_events(&(0..plan.events.len()).rev().collect::<Vec<usize>>());
    cases.push(Case::new(Operation::Check, &[&net, &plan.text()]));
}

#[cfg(test)]
mod tests {
    use super::*;
    use crate::case::lent;
    use crate::sim::SIMULATOR;

    /// The pairs of a run of rings that are all apart, or all in a chain: those across the rings, or none.
    fn pairs(rings: &Rings) -> Option<u64> {
        let two = |events: usize| events * events.saturating_sub(1) / 2;
        let sizes = rings.sizes.iter().map(|size| size * rings.times);
        let across = two(sizes.clone().sum()) - sizes.map(two).sum::<usize>();
        match &rings.links {
            links if links.iter().all(|link| *link == Link::Apart) => Some(across as u64),
            links if links.iter().all(|link| *link != Link::Apart) => Some(0),
            _ => None,
        }
    }

    /// The rings are loops: their runs are built, and the pairs are what their sizes say.
    #[test]
    fn rings_have_the_pairs_of_their_sizes() {
        for sizes in [vec![31], vec![1; 31], vec![2; 15], vec![3, 2], vec![16, 15], vec![1, 2, 3, 4]] {
            for (links, times) in links(sizes.len()).into_iter().flat_map(|links| [1, 2, 4].map(|times| (links.clone(), times))) {
                let rings = Rings { sizes: sizes.clone(), links, times };
                let net = rings.net().text();
                let record = build(&net, &log_text(&rings.steps(|| true))).expect("the run is one of the net");
                let answer = crate::case::run(&SIMULATOR, &Case::new(Operation::Check, &[&net, &record])).answer;
                assert_eq!(answer.a as usize, times * sizes.iter().sum::<usize>());
                assert!(pairs(&rings).is_none_or(|pairs| pairs == answer.c), "{answer:?} {sizes:?} {times} {:?}", rings.links);
            }
        }
    }

    /// Each of the 128 events is not later than the 127 others, counted from the first and from the last.
    #[test]
    fn ring_of_128_is_one_loop() {
        let mut cases = Vec::new();
        ring_of_128(&mut cases);
        let whole = |case: &&Case| {
            let mut found = crate::case::run(&SIMULATOR, case);
            (found.answer.a, found.answer.c) == (128, 0) && lent(&mut found.bytes).iter().filter(|entry| **entry == 1).count() == 128 * 127
        };
        // The record as it was built stands twice, since it has no A to be changed.
        assert_eq!(cases.iter().filter(|case| case.operation == Operation::Check).filter(whole).count(), 3);
    }
}
