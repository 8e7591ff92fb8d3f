//! What read arcs add: nets with them, runs of them at the limits, records whose R marks are changed or broken, and texts
//! that 51 refuses.

use super::nets::some;
use super::weights;
use crate::case::{Case, Operation};
use crate::model::{MarkPlan, NetPlan, Places, RecordPlan};
use crate::rng::Rng;
use crate::sim::{EVENTS, MARKS};

/// Read arcs at places that are no inputs of the transition: mostly marked ones, so that they do not forbid everything, and
/// now and then one that also inhibits it, so that it never occurs.
pub fn add_arcs(rng: &mut Rng, plan: &mut NetPlan) {
    let share = rng.pick(&[0, 10, 20, 20, 40]);
    for t in 0..plan.transitions() {
        let (inputs, inhibitors, tokens) = (plan.inputs[t], plan.inhibitors[t], plan.tokens.clone());
        let percent = |p: usize| match (inputs >> p & 1, inhibitors >> p & 1, tokens[p]) {
            (1, _, _) => 0,
            (_, 1, _) => share / 10,
            (_, _, 0) => share / 2,
            _ => share,
        };
        plan.reads[t] = some(rng, plan.places(), percent);
    }
}

/// Places that `store` has besides its first four, each with a token; its transition 0 reads some of them.
const LAMPS: usize = 28;

/// A store like `nets::store` with read arcs: runs of it come to the limit of marks with R marks among them. Transition 0
/// watches two places and reads others, transition 1 fills both, transition 2 moves a token that is read.
pub fn store(rng: &mut Rng) -> NetPlan {
    let tokens = rng.pick(&[140, 260, 300, 340]);
    let (watched, lamps) = (0b1100, rng.pick(&[1, 2, 7, 16, 27, LAMPS]));
    let read = ((1 << lamps) - 1) << 4;
    NetPlan {
        tokens: [vec![tokens, 0, 0, 0], vec![1; LAMPS]].concat(),
        inputs: vec![1, 1, 1 << 4],
        outputs: vec![0b0010, watched, 1 << 4],
        inhibitors: vec![watched, 0, 0],
        reads: vec![read, rng.pick(&[0, 1 << 4, 0b11 << 30]), rng.pick(&[0, 1 << 5])],
        ..NetPlan::default()
    }
}

/// A log of `store` with about as many marks as may be: each event of transition 0 has one for each lamp that it reads and
/// two for each event of transition 1.
pub fn at_the_limit(rng: &mut Rng, plan: &NetPlan) -> Vec<Vec<usize>> {
    let lamps = plan.reads[0].count_ones() as usize;
    let fillers = rng.between(4, 40);
    let full = MARKS / (lamps + 2 * fillers);
    let readers = (full + rng.below(2)).min(EVENTS - fillers - 1);
    let half = rng.below(readers);
    vec![vec![0; half], vec![2], vec![0; readers - half], vec![1; fillers]].into_iter().filter(|step| !step.is_empty()).collect()
}

/// The net's text with R lines put in: for a place that is consumed, above or below its I line; again; or anywhere.
pub fn refused_text(rng: &mut Rng, text: &[u8]) -> Vec<u8> {
    let text = String::from_utf8_lossy(text);
    let mut lines: Vec<String> = text.lines().map(String::from).collect();
    let of = |letter: char| lines.iter().enumerate().filter(|(_, line)| line.starts_with(letter)).map(|(at, _)| at).collect::<Vec<usize>>();
    let (inputs, reads) = (of('I'), of('R'));
    let (letter, from) = if rng.chance(70) || reads.is_empty() { ('R', inputs) } else { (rng.pick(&['R', 'I', 'H']), reads) };
    if let Some(at) = from.get(rng.below(from.len().max(1))) {
        let line = format!("{letter}{}", &weights::ends(&lines[*at])[1..]);
        let place = if rng.chance(40) { *at } else { rng.between(at + 1, lines.len()) };
        lines.insert(place, line);
    } else {
        lines.push(rng.pick(&["R,0,0", "R,99,0", "R,0,32", "R,0"]).to_string());
    }
    lines.iter().map(|line| format!("{line}\n")).collect::<String>().into_bytes()
}

/// The places of R marks in the list of marks.
fn reads_of(plan: &RecordPlan) -> Vec<usize> {
    (0..plan.marks.len()).filter(|at| plan.marks[*at].letter == 'R').collect()
}

/// The conditions of the same place.
fn alike(plan: &RecordPlan, condition: usize) -> Vec<usize> {
    let place = |c: usize| plan.conditions.get(c).map(|condition| condition.place);
    (0..plan.conditions.len()).filter(|c| place(*c) == place(condition)).collect()
}

/// Some R marks on other conditions of their places: mostly such that were made before the reader by its number and not taken
/// before.
pub fn other_conditions(rng: &mut Rng, plan: &mut RecordPlan) {
    for at in reads_of(plan) {
        if rng.chance(40) {
            let MarkPlan { condition, event, .. } = plan.marks[at];
            let before = |c: &usize| plan.conditions[*c].producer.is_none_or(|e| e < event) && plan.conditions[*c].consumer.is_none_or(|e| e >= event);
            let all = alike(plan, condition);
            let likely: Vec<usize> = all.iter().copied().filter(before).collect();
            let from = if likely.is_empty() || rng.chance(25) { &all } else { &likely };
            if !from.is_empty() {
                plan.marks[at].condition = rng.pick(from);
            }
        }
    }
}

/// R marks on any conditions of their places that hold when the reader's line begins, where there are such.
pub fn reads_in_order(rng: &mut Rng, plan: &mut RecordPlan, line_of: &[usize]) {
    for at in reads_of(plan) {
        let MarkPlan { condition, event, .. } = plan.marks[at];
        let holds = |c: &usize| {
            let found = &plan.conditions[*c];
            found.producer.is_none_or(|e| line_of[e] < line_of[event]) && found.consumer.is_none_or(|e| line_of[e] >= line_of[event])
        };
        let held: Vec<usize> = alike(plan, condition).into_iter().filter(holds).collect();
        if !held.is_empty() {
            plan.marks[at].condition = rng.pick(&held);
        }
    }
}

/// One R mark left out, doubled, on another condition of its place or of another, at another event, of another kind, or one
/// put beside a mark; or a B or an A put beside it.
pub fn break_mark(rng: &mut Rng, plan: &mut RecordPlan) {
    let (reads, events, conditions) = (reads_of(plan), plan.events.len().max(1), plan.conditions.len().max(1));
    let Some(at) = reads.get(rng.below(reads.len().max(1))).copied() else {
        return add_mark(rng, plan);
    };
    let mark = plan.marks[at].clone();
    let alike = alike(plan, mark.condition);
    let same_place = if alike.is_empty() { mark.condition } else { rng.pick(&alike) };
    let place = rng.between(0, plan.marks.len());
    match rng.below(10) {
        0 => drop(plan.marks.remove(at)),
        1 => plan.marks.insert(place, mark),
        2 => plan.marks.insert(place, MarkPlan { condition: same_place, ..mark }),
        3 => plan.marks[at].condition = same_place,
        4 => plan.marks[at].condition = rng.below(conditions),
        5 => plan.marks[at].event = rng.below(events),
        6 => plan.marks[at].letter = rng.pick(&['A', 'B']),
        7 => plan.marks.insert(place, MarkPlan { letter: rng.pick(&['A', 'B']), ..mark }),
        8 => plan.marks[at].condition = own_product(rng, plan, mark.event).unwrap_or(mark.condition),
        _ => add_mark(rng, plan),
    }
}

/// A condition that the event makes.
fn own_product(rng: &mut Rng, plan: &RecordPlan, event: usize) -> Option<usize> {
    let made: Vec<usize> = (0..plan.conditions.len()).filter(|c| plan.conditions[*c].producer == Some(event)).collect();
    (!made.is_empty()).then(|| rng.pick(&made))
}

/// An R mark anywhere, mostly beside a B or an A.
fn add_mark(rng: &mut Rng, plan: &mut RecordPlan) {
    let (events, conditions) = (plan.events.len().max(1), plan.conditions.len().max(1));
    let place = rng.between(0, plan.marks.len());
    let mut mark = MarkPlan { letter: 'R', condition: rng.below(conditions), event: rng.below(events) };
    if !plan.marks.is_empty() && rng.chance(70) {
        mark = MarkPlan { letter: 'R', ..rng.pick_one(&plan.marks).clone() };
    }
    plan.marks.insert(place, mark);
}

/// A record with events that both read a place and are inhibited by it, under a net made to suit: a transition of the record is
/// given the other arc at one of its places, and each of its events the marks for it. No such record is a process, but it is
/// read, and refused by its order at the latest.
pub fn read_and_inhibited(rng: &mut Rng, net: &NetPlan, record: &[u8]) -> Vec<Case> {
    let (mut net, mut plan) = (net.clone(), RecordPlan::read(record));
    let some = |plan: &RecordPlan, arcs: &[Places]| plan.events.iter().copied().filter(|t| arcs.get(*t).is_some_and(|places| *places != 0)).collect::<Vec<usize>>();
    let (readers, inhibited) = (some(&plan, &net.reads), some(&plan, &net.inhibitors));
    if !readers.is_empty() && (inhibited.is_empty() || rng.chance(50)) {
        let t = rng.pick(&readers);
        let place = lowest(net.reads[t]);
        net.inhibitors[t] |= 1 << place;
        inhibit(rng, &mut plan, t, place);
    } else if !inhibited.is_empty() {
        let t = rng.pick(&inhibited);
        let place = lowest(net.inhibitors[t] & !net.inputs[t]);
        if place < net.places() {
            net.reads[t] |= 1 << place;
            read(rng, &mut plan, t, place);
        }
    }
    let (net, record) = (net.text(), plan.text());
    vec![Case::new(Operation::Check, &[&net, &record]), Case::new(Operation::Arrange, &[&net, &record]), Case::new(Operation::Replay, &[&net, &record, b"G,0\n"])]
}

fn lowest(places: Places) -> usize {
    places.trailing_zeros() as usize
}

/// The B and A marks of the transition's events at a place that has begun to inhibit it.
fn inhibit(rng: &mut Rng, plan: &mut RecordPlan, transition: usize, place: usize) {
    for event in (0..plan.events.len()).filter(|event| plan.events[*event] == transition) {
        for (condition, found) in plan.conditions.iter().enumerate() {
            let marked = plan.marks.iter().any(|mark| mark.letter != 'R' && (mark.condition, mark.event) == (condition, event));
            if found.place == place && found.producer != Some(event) && !marked {
                let letter = match (found.producer, found.consumer) {
                    (None, Some(_)) => 'A',
                    (Some(_), None) => 'B',
                    _ => rng.pick(&['A', 'B']),
                };
                plan.marks.push(MarkPlan { letter, condition, event });
            }
        }
    }
}

/// An R mark for each of the transition's events at a place that it has begun to read.
fn read(rng: &mut Rng, plan: &mut RecordPlan, transition: usize, place: usize) {
    let held: Vec<usize> = (0..plan.conditions.len()).filter(|c| plan.conditions[*c].place == place).collect();
    for event in (0..plan.events.len()).filter(|event| plan.events[*event] == transition) {
        if !held.is_empty() {
            plan.marks.push(MarkPlan { letter: 'R', condition: rng.pick(&held), event });
        }
    }
}

#[cfg(test)]
mod tests {
    use super::*;
    use crate::case::run;
    use crate::gen::{build, net, play, SMALL};
    use crate::model::log_text;
    use crate::sim::SIMULATOR;

    /// A record whose marks are all due, with events that read a place and are inhibited by it: never a process, and what
    /// refuses it is a kind of mark or the order.
    #[test]
    fn read_and_inhibited_is_no_process() {
        let mut met = [0; 40];
        for round in 0..20_000 {
            let mut rng = Rng::for_round(16, round);
            let net = net(&mut rng, SMALL);
            let steps = play(&mut rng, &net, SMALL);
            let built = build(&net.text(), &log_text(&steps)).expect("an enabled step sequence");
            let cases = read_and_inhibited(&mut rng, &net, &built);
            let arcs = |text: &[u8]| text.iter().filter(|byte| **byte == 10).count();
            if arcs(&cases[0].texts[0]) > arcs(&net.text()) {
                met[run(&SIMULATOR, &cases[0]).answer.number as usize] += 1;
            }
        }
        // 37 where the place never has a token that could be marked.
        assert!(met.iter().enumerate().all(|(number, count)| *count == 0 || [37, 38, 39].contains(&number)), "{met:?}");
        assert!(met[38] > 100 && met[39] > 100, "{met:?}");
    }

    /// Runs of `store` come to the limit of marks from both sides.
    #[test]
    fn stores_come_to_the_limit() {
        let mut met = [0, 0];
        for round in 0..200 {
            let mut rng = Rng::for_round(17, round);
            let net = store(&mut rng);
            let case = Case::new(Operation::Build, &[&net.text(), &log_text(&at_the_limit(&mut rng, &net))]);
            match run(&SIMULATOR, &case).answer.number {
                0 => met[0] += 1,
                27 => met[1] += 1,
                number => panic!("{number}"),
            }
        }
        assert!(met.iter().all(|count| *count > 30), "built and 27: {met:?}");
    }
}
