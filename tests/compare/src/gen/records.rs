//! Proposed records: a built one, changed. Some changes leave it a process (other names, another token, another kind of
//! mark, another condition read), most do not.

use super::{readers, weights, Size};
use crate::model::{ConditionPlan, MarkPlan, NetPlan, RecordPlan};
use crate::rng::Rng;
use crate::sim::{CONDITIONS, EVENTS, MARKS};

/// With marks of every kind broken, or of B and A alone; and counts by weight.
pub fn propose(rng: &mut Rng, net: &NetPlan, built: &[u8], size: Size) -> Vec<u8> {
    let mut plan = RecordPlan::read(built);
    if rng.chance(40) {
        change(rng, &mut plan);
    }
    if rng.chance(35) {
        (0..rng.between(1, 2)).for_each(|_| break_rule(rng, net, &mut plan));
    }
    if size.reads && rng.chance(20) {
        readers::break_mark(rng, &mut plan);
    }
    if size.weights && rng.chance(10) {
        weights::break_count(rng, &mut plan);
    }
    if rng.below(300) == 0 {
        fill(rng, net, &mut plan, size.reads);
    }
    plan.text()
}

/// One group filled up to its limit or one past it.
fn fill(rng: &mut Rng, net: &NetPlan, plan: &mut RecordPlan, reads: bool) {
    let more = rng.below(2);
    match rng.below(3) {
        0 => {
            plan.events.resize(EVENTS, 0);
            plan.events.extend((0..more).map(|_| rng.below(net.transitions() + 2)));
        }
        1 => plan.conditions.resize(CONDITIONS + more, ConditionPlan { place: 0, producer: None, consumer: None }),
        _ => {
            plan.events.resize(9, 0);
            plan.conditions.resize(CONDITIONS, ConditionPlan { place: 0, producer: None, consumer: None });
            let letters = if reads { ['B', 'R'] } else { ['B', 'B'] };
            let pairs = (0..9).flat_map(|event| (0..CONDITIONS).map(move |condition| (condition, event)));
            plan.marks = pairs.map(|(condition, event)| MarkPlan { letter: letters[(condition + event) % 2], condition, event }).take(MARKS + more).collect();
        }
    }
}

/// Changes after which the record may well be a process still.
pub fn change(rng: &mut Rng, plan: &mut RecordPlan) {
    match rng.below(4) {
        0 => other_kinds(rng, plan),
        1 | 2 => kinds_of_another_order(rng, plan),
        _ => {}
    }
    if rng.chance(40) {
        (0..rng.between(1, 3)).for_each(|_| swap_ends(rng, plan));
    }
    if plan.marks.iter().any(|mark| mark.letter == 'R') && rng.chance(50) {
        readers::other_conditions(rng, plan);
    }
    if rng.chance(60) {
        rename(rng, plan);
    }
}

fn permutation(rng: &mut Rng, length: usize) -> Vec<usize> {
    let mut names: Vec<usize> = (0..length).collect();
    rng.shuffle(&mut names);
    names
}

fn rename(rng: &mut Rng, plan: &mut RecordPlan) {
    let (events, conditions) = (permutation(rng, plan.events.len()), permutation(rng, plan.conditions.len()));
    plan.rename_events(&events);
    plan.rename_conditions(&conditions);
    rng.shuffle(&mut plan.marks);
}

/// Another kind for some of the marks, mostly on conditions that are both produced and consumed.
fn other_kinds(rng: &mut Rng, plan: &mut RecordPlan) {
    let percent = rng.pick(&[10, 30, 50]);
    for mark in plan.marks.iter_mut().filter(|mark| mark.letter != 'R') {
        let condition = &plan.conditions[mark.condition];
        let both_will_do = condition.producer.is_some() && condition.consumer.is_some();
        if rng.chance(if both_will_do { percent } else { 3 }) {
            mark.letter = other_letter(mark.letter);
        }
    }
}

/// The events in another order, each after those that make what it takes, and the kinds of marks that a run in that order has.
fn kinds_of_another_order(rng: &mut Rng, plan: &mut RecordPlan) {
    let Some(line_of) = another_order(rng, plan) else {
        return;
    };
    readers::reads_in_order(rng, plan, &line_of);
    for mark in plan.marks.iter_mut().filter(|mark| mark.letter != 'R') {
        let consumer = plan.conditions[mark.condition].consumer;
        let gone = consumer.is_some_and(|consumer| line_of[consumer] < line_of[mark.event]);
        mark.letter = if gone { 'A' } else { 'B' };
    }
}

/// The line of each event; nothing if some event is needed for itself.
fn another_order(rng: &mut Rng, plan: &RecordPlan) -> Option<Vec<usize>> {
    let share = rng.pick(&[0, 30, 100]);
    let mut line_of = vec![None; plan.events.len()];
    let mut line = 0;
    while line_of.contains(&None) {
        let waits = |f: usize| plan.conditions.iter().any(|c| c.consumer == Some(f) && c.producer.is_some_and(|e| line_of[e].is_none()));
        let ready: Vec<usize> = (0..line_of.len()).filter(|f| line_of[*f].is_none() && !waits(*f)).collect();
        let first = *ready.get(rng.below(ready.len().max(1)))?;
        ready.iter().filter(|f| **f == first || rng.chance(share)).for_each(|f| line_of[*f] = Some(line));
        line += 1;
    }
    line_of.into_iter().collect()
}

fn other_letter(letter: char) -> char {
    if letter == 'B' { 'A' } else { 'B' }
}

/// Another token: two conditions of a place change their consumers or their producers.
fn swap_ends(rng: &mut Rng, plan: &mut RecordPlan) {
    if plan.conditions.is_empty() {
        return;
    }
    let one = rng.below(plan.conditions.len());
    let place = plan.conditions[one].place;
    let alike: Vec<usize> = (0..plan.conditions.len()).filter(|c| plan.conditions[*c].place == place).collect();
    let other = rng.pick(&alike);
    let (first, second) = (plan.conditions[one].clone(), plan.conditions[other].clone());
    if rng.chance(80) {
        plan.conditions[one].consumer = second.consumer;
        plan.conditions[other].consumer = first.consumer;
    } else {
        plan.conditions[one].producer = second.producer;
        plan.conditions[other].producer = first.producer;
    }
}

/// One change that mostly breaks a rule.
fn break_rule(rng: &mut Rng, net: &NetPlan, plan: &mut RecordPlan) {
    match rng.below(4) {
        0 => break_event(rng, net, plan),
        1 => break_condition(rng, net, plan),
        _ => break_mark(rng, plan),
    }
}

/// A number below the count, or now and then the count itself, which names nothing.
fn number(rng: &mut Rng, count: usize) -> usize {
    if count == 0 || rng.chance(8) { count } else { rng.below(count) }
}

fn any_end(rng: &mut Rng, plan: &RecordPlan) -> Option<usize> {
    (!rng.chance(30)).then(|| number(rng, plan.events.len()))
}

fn break_event(rng: &mut Rng, net: &NetPlan, plan: &mut RecordPlan) {
    let transition = number(rng, net.transitions());
    let at = rng.below(plan.events.len() + 1);
    if at == plan.events.len() {
        plan.events.push(transition);
    } else if rng.chance(50) {
        plan.events[at] = transition;
    } else {
        plan.events.remove(at);
    }
}

fn break_condition(rng: &mut Rng, net: &NetPlan, plan: &mut RecordPlan) {
    let fresh = ConditionPlan { place: number(rng, net.places()), producer: any_end(rng, plan), consumer: any_end(rng, plan) };
    let at = rng.below(plan.conditions.len() + 1);
    if at == plan.conditions.len() {
        return plan.conditions.push(fresh);
    }
    match rng.below(6) {
        0 => plan.conditions[at].place = fresh.place,
        1 | 2 => plan.conditions[at].producer = fresh.producer,
        3 | 4 => plan.conditions[at].consumer = fresh.consumer,
        _ => drop(plan.conditions.remove(at)),
    }
}

fn break_mark(rng: &mut Rng, plan: &mut RecordPlan) {
    let fresh = MarkPlan { letter: rng.pick(&['B', 'A']), condition: number(rng, plan.conditions.len()), event: number(rng, plan.events.len()) };
    let at = rng.below(plan.marks.len() + 1);
    if at == plan.marks.len() {
        return plan.marks.push(fresh);
    }
    match rng.below(6) {
        0 => drop(plan.marks.remove(at)),
        1 => plan.marks.insert(at, fresh),
        2 => plan.marks.push(MarkPlan { letter: fresh.letter, ..plan.marks[at].clone() }),
        3 => plan.marks[at].event = fresh.event,
        4 => plan.marks[at].condition = fresh.condition,
        _ => plan.marks[at].letter = other_letter(plan.marks[at].letter),
    }
}

#[cfg(test)]
mod tests {
    use super::*;
    use crate::case::Subject;
    use crate::gen::{build, net, play, SMALL};
    use crate::model::log_text;
    use crate::sim::{SIMULATOR, TABLE_ROOM};

    type Change = fn(&mut Rng, &mut RecordPlan);

    /// Records that no log builds, and that are processes: by other names, another token, another kind of mark, another
    /// condition read.
    #[test]
    fn changed_records_are_often_processes() {
        let changes: [(&str, Change); 5] =
            [("names", rename), ("token", swap_ends), ("kinds", kinds_of_another_order), ("reads", readers::other_conditions), ("all", change)];
        for (name, change) in changes {
            let (mut changed, mut processes) = (0, 0);
            for round in 0..3_000 {
                let mut rng = Rng::for_round(13, round);
                let net = net(&mut rng, SMALL);
                let steps = play(&mut rng, &net, SMALL);
                let built = build(&net.text(), &log_text(&steps)).expect("an enabled step sequence");
                let mut plan = RecordPlan::read(&built);
                change(&mut rng, &mut plan);
                changed += (plan.text() != built) as usize;
                processes += (plan.text() != built && SIMULATOR.check(&net.text(), &plan.text(), &mut [0; TABLE_ROOM]).accepted()) as usize;
            }
            println!("{name}: {processes} of {changed}");
            assert!(processes > 100, "{name}: {processes} of {changed}");
        }
    }
}
