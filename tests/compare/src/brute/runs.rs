//! What there is of a small net and a small record: all runs, all steps, all arrangements.

use crate::gen::{self, Size};
use crate::model::{Marking, NetPlan};
use crate::rng::Rng;
use std::sync::OnceLock;

/// A run: the transitions of each step.
pub type Run = Vec<Vec<usize>>;

/// More runs than this are too many for all their arrangements, fewer than the other show little.
const MOST: usize = 150;
const LEAST: usize = 8;

/// A net and all its runs of up to so many events, with ascending transitions in a step.
pub fn net_and_runs(rng: &mut Rng, size: Size) -> (NetPlan, Vec<Run>) {
    loop {
        let net = gen::net(rng, size);
        let mut runs = vec![Vec::new()];
        extend(&net, &mut Vec::new(), &net.tokens, size.events, &mut runs);
        if (LEAST..=MOST).contains(&runs.len()) {
            return (net, runs);
        }
    }
}

/// Adds every run that goes on from these steps by up to so many events, until there are too many.
fn extend(net: &NetPlan, steps: &mut Run, marking: &Marking, events: usize, runs: &mut Vec<Run>) {
    for step in enabled_steps(net, marking, events) {
        if runs.len() > MOST {
            return;
        }
        let after = net.fire(marking, &step);
        let left = events - step.len();
        steps.push(step);
        runs.push(steps.clone());
        extend(net, steps, &after, left, runs);
        steps.pop();
    }
}

/// A step of which a part is not enabled is not enabled, so each is made from an enabled one by one event more.
fn enabled_steps(net: &NetPlan, marking: &Marking, events: usize) -> Vec<Vec<usize>> {
    let mut all: Vec<Vec<usize>> = Vec::new();
    let mut last = vec![Vec::new()];
    for _ in 0..events {
        last = last.iter().flat_map(|step| longer(net, step)).filter(|step| net.enabled(marking, step)).collect();
        all.extend(last.iter().cloned());
    }
    all
}

/// The step with one transition more, none lower than its last.
fn longer(net: &NetPlan, step: &[usize]) -> Vec<Vec<usize>> {
    let from = step.last().copied().unwrap_or(0);
    (from..net.transitions()).map(|transition| [step, &[transition]].concat()).collect()
}

/// Every step of up to so many events, enabled or not.
pub fn steps_of(net: &NetPlan, events: usize) -> Vec<Vec<usize>> {
    let mut all: Vec<Vec<usize>> = Vec::new();
    let mut last = vec![Vec::new()];
    for _ in 0..events {
        last = last.iter().flat_map(|step| longer(net, step)).collect();
        all.extend(last.iter().cloned());
    }
    all
}

/// The line of each event.
pub type LineOf = Vec<usize>;

/// All ways to give each of so many events (at most five) a line so that no line up to the last is empty.
pub fn arrangements(events: usize) -> &'static [LineOf] {
    static MADE: OnceLock<Vec<Vec<LineOf>>> = OnceLock::new();
    &MADE.get_or_init(|| (0..=5).map(make_arrangements).collect())[events]
}

fn make_arrangements(events: usize) -> Vec<LineOf> {
    let mut all = vec![Vec::new()];
    for _ in 0..events {
        let longer = |lines: &LineOf| (0..events).map(|line| [&lines[..], &[line]].concat()).collect::<Vec<_>>();
        all = all.iter().flat_map(longer).collect();
    }
    all.retain(|lines| (0..line_count(lines)).all(|line| lines.contains(&line)));
    all
}

pub fn line_count(line_of: &[usize]) -> usize {
    line_of.iter().max().map_or(0, |last| last + 1)
}

/// The events of each line.
pub fn by_line(line_of: &[usize]) -> Vec<Vec<usize>> {
    let on = |line: usize| (0..line_of.len()).filter(|event| line_of[*event] == line).collect();
    (0..line_count(line_of)).map(on).collect()
}

#[cfg(test)]
mod tests {
    use super::*;

    #[test]
    fn arrangements_are_the_ordered_set_partitions() {
        let counts: Vec<usize> = (0..=5).map(|events| arrangements(events).len()).collect();
        assert_eq!(counts, [1, 1, 3, 13, 75, 541]);
    }

    /// Three transitions that each can fire once, in any order and together: subsets of the three, each arranged.
    #[test]
    fn runs_are_the_step_sequences() {
        let net = NetPlan { tokens: vec![1, 1, 1, 0], inputs: vec![1, 2, 4], outputs: vec![8, 8, 8], inhibitors: vec![0, 0, 0], reads: vec![0, 0, 0], ..NetPlan::default() };
        let mut runs = vec![Vec::new()];
        extend(&net, &mut Vec::new(), &net.tokens, 5, &mut runs);
        assert_eq!(runs.len(), 1 + 3 + 3 * 3 + 13);
        assert_eq!(steps_of(&net, 2).len(), 3 + 6);
    }

    /// Two events of a transition that takes two of a place: with three tokens one of them, with four both, apart or together; and
    /// what two make is enough for one more that takes three.
    #[test]
    fn weights_are_taken_and_made() {
        let net = |tokens: usize, input: usize| NetPlan {
            tokens: vec![tokens, 0],
            inputs: vec![1, 2],
            outputs: vec![2, 1],
            inhibitors: vec![0, 0],
            reads: vec![0, 0],
            weights: [(('I', 0, 0), 2), (('O', 0, 1), 2), (('I', 1, 1), input), (('O', 1, 0), 1)].into(),
        };
        let count = |net: NetPlan, events: usize| {
            let mut runs = vec![Vec::new()];
            extend(&net, &mut Vec::new(), &net.tokens, events, &mut runs);
            runs.len()
        };
        assert_eq!(count(net(3, 16), 5), 1 + 1);
        assert_eq!(count(net(4, 16), 5), 1 + 1 + 2);
        assert_eq!(count(net(4, 3), 3), 1 + 1 + 2 + 2);
        assert_eq!(net(4, 3).fire(&vec![4, 0], &[0, 0]), [0, 4]);
        assert_eq!(net(4, 3).refusal(&vec![0, 2], &[1]), 24);
    }

    /// The same with transition 0 reading what transition 1 takes: of the runs above those in which it does not come later.
    #[test]
    fn readers_do_not_come_after_the_taker() {
        let net = NetPlan { tokens: vec![1, 1, 1, 0], inputs: vec![1, 2, 4], outputs: vec![8, 8, 8], inhibitors: vec![0, 0, 0], reads: vec![2, 0, 0], ..NetPlan::default() };
        let mut runs = vec![Vec::new()];
        extend(&net, &mut Vec::new(), &net.tokens, 5, &mut runs);
        assert_eq!(runs.len(), 1 + 3 + (2 + 3 + 3) + 8);
    }
}
