//! Random logs: found by playing the net, so that most steps are enabled; some get a wrong step.

use super::{weights, Size};
use crate::model::{Marking, NetPlan};
use crate::rng::Rng;
use crate::sim::{CONDITIONS, EVENTS};

/// Enabled steps, and sometimes one that may be wrong.
pub fn log(rng: &mut Rng, plan: &NetPlan, size: Size) -> Vec<Vec<usize>> {
    let mut steps = play(rng, plan, size);
    if rng.chance(30) {
        let at = rng.below(steps.len() + 1);
        steps.insert(at, any_step(rng, plan, size));
    }
    steps
}

/// A log of `nets::store` whose record has about as many events, conditions or marks as may be. In that net transition 0
/// watches two places and makes one condition, and transition 1 fills both places.
pub fn at_the_limit(rng: &mut Rng, plan: &NetPlan) -> Vec<Vec<usize>> {
    let (watchers, fillers) = match rng.below(4) {
        0 => (rng.between(EVENTS - 1, EVENTS + 1), 0),
        1 => ((CONDITIONS + 1 - plan.tokens[0]).saturating_sub(rng.below(3)).min(EVENTS), 0),
        2 => (64, rng.between(31, 33)),
        _ => (rng.between(50, 90), rng.between(20, 45)),
    };
    let mut steps = parted(rng, 0, watchers);
    steps.extend(parted(rng, 1, fillers));
    steps
}

/// So many events of a transition, in some steps.
fn parted(rng: &mut Rng, transition: usize, events: usize) -> Vec<Vec<usize>> {
    let steps = rng.between(1, 4);
    let sizes = (0..steps).map(|step| events * (step + 1) / steps - events * step / steps);
    sizes.filter(|size| *size > 0).map(|size| vec![transition; size]).collect()
}

/// An enabled step sequence.
pub fn play(rng: &mut Rng, plan: &NetPlan, size: Size) -> Vec<Vec<usize>> {
    let least = rng.pick(&[0, size.events / 3, size.events / 2]);
    let wanted = rng.between(least, size.events);
    let mut marking = plan.tokens.clone();
    let mut steps = Vec::new();
    let mut events = 0;
    let mut conditions = plan.tokens.iter().sum();
    while events < wanted {
        let most = rng.between(1, size.step).min(wanted - events);
        let step = enabled_step(rng, plan, &marking, most);
        if step.is_empty() || weights::passes(plan, conditions, &step) {
            break;
        }
        conditions += weights::outputs(plan, &step);
        marking = plan.fire(&marking, &step);
        events += step.len();
        steps.push(step);
    }
    steps
}

/// Empty only if no transition is enabled.
fn enabled_step(rng: &mut Rng, plan: &NetPlan, marking: &Marking, most: usize) -> Vec<usize> {
    let able: Vec<usize> = (0..plan.transitions()).filter(|t| plan.enabled(marking, &[*t])).collect();
    let mut step = Vec::new();
    for _ in 0..2 * most {
        if able.is_empty() || step.len() == most {
            break;
        }
        step.push(rng.pick(&able));
        if !plan.enabled(marking, &step) {
            step.pop();
        }
    }
    step
}

fn any_step(rng: &mut Rng, plan: &NetPlan, size: Size) -> Vec<usize> {
    let unknown = if rng.chance(20) { 1 } else { 0 };
    let most = (plan.transitions() + unknown).max(1);
    let length = if rng.chance(4) { rng.between(EVENTS - 3, EVENTS + 2) } else { rng.between(1, size.step) };
    (0..length).map(|_| rng.below(most)).collect()
}
