//! What weights add (02, 2026-06): nets with them, runs that come to the limits by weight, records in which an event has a condition
//! too many or too few, texts that 54 refuses or that are malformed at a weight, and nets with the weight 1 written out.

use super::round_with;
use crate::case::{Case, Operation};
use crate::model::{ConditionPlan, NetPlan, RecordPlan};
use crate::rng::Rng;
use crate::sim::{Requests, CONDITIONS, EVENTS, LONGEST_INPUT, MARKS, PLACES, TOKENS, WEIGHT};

/// Weights at the ends of the range and past them, at powers of two, too long, with needless zeros, what is no number, and two.
pub const WEIGHTS: [&str; 34] = [
    "0", "1", "2", "15", "16", "17", "18", "31", "32", "99", "127", "128", "129", "255", "256", "257", "272", "1000", "4096", "9999", "00", "01", "016", "0016", "00016", "00017", "10000", "65537", "-", "", "+1", "1,1", "16,", "2,17",
];

/// Weights on some arcs, written 1 among them, tokens for most of what is taken, and now and then an own output that inhibits.
pub fn add(rng: &mut Rng, plan: &mut NetPlan) {
    let share = rng.pick(&[0, 30, 60, 100]);
    if share > 0 && rng.chance(30) {
        inhibit_own(rng, plan);
    }
    for t in 0..plan.transitions() {
        for p in 0..plan.places() {
            for letter in ['I', 'O'] {
                if plan.weight(letter, t, p) > 0 && rng.chance(share) {
                    plan.weights.insert((letter, t, p), any(rng));
                }
            }
        }
    }
    feed(rng, plan);
}

/// Mostly small, so that there are tokens for it.
fn any(rng: &mut Rng) -> usize {
    match rng.below(40) {
        0..=7 => 1,
        8..=21 => 2,
        22..=29 => 3,
        30..=35 => 4,
        36..=38 => rng.between(5, WEIGHT - 1),
        _ => WEIGHT,
    }
}

/// A transition is inhibited by an empty place that it fills.
fn inhibit_own(rng: &mut Rng, plan: &mut NetPlan) {
    let own = |t: usize, p: usize| plan.weight('O', t, p) > 0 && plan.weight('I', t, p) == 0 && plan.tokens[p] == 0;
    let pairs: Vec<(usize, usize)> = (0..plan.transitions()).flat_map(|t| (0..plan.places()).map(move |p| (t, p))).filter(|(t, p)| own(*t, *p)).collect();
    if !pairs.is_empty() {
        let (t, p) = rng.pick(&pairs);
        plan.inhibitors[t] |= 1 << p;
    }
}

/// Places that have tokens get some more, up to two events of the greatest weight there, as long as the net may have them.
fn feed(rng: &mut Rng, plan: &mut NetPlan) {
    for p in 0..plan.places() {
        let greatest = (0..plan.transitions()).map(|t| plan.weight('I', t, p)).max().unwrap_or(0);
        if plan.tokens[p] > 0 && greatest > 1 {
            let left = TOKENS - plan.tokens.iter().sum::<usize>();
            plan.tokens[p] += (greatest * rng.between(0, 2) + rng.below(2)).min(left);
        }
    }
}

/// A net whose runs come to a limit by weight, and a log of about that length: of conditions, of all that a step can make, of
/// tokens, also such as were made before, or of marks, where an event has none on all that it makes itself.
pub fn at_the_limit(rng: &mut Rng) -> (NetPlan, Vec<Vec<usize>>) {
    match rng.below(6) {
        0 => conditions(rng),
        1 => flood(rng),
        2 => tokens(rng),
        3 => refilled(rng),
        _ => own_marks(rng),
    }
}

/// Transition 0 makes so many at place 1, and the store has so many tokens that the record has about 512 conditions.
fn conditions(rng: &mut Rng) -> (NetPlan, Vec<Vec<usize>>) {
    let weight = rng.between(2, WEIGHT);
    let events = rng.between(1, (CONDITIONS / (weight + 1)).min(EVENTS));
    let store = CONDITIONS + rng.below(2) - weight * events;
    let plan = NetPlan {
        tokens: vec![store, 0],
        inputs: vec![1],
        outputs: vec![2],
        inhibitors: vec![0],
        reads: vec![0],
        weights: [(('O', 0, 1), weight)].into(),
    };
    (plan, parted(rng, 0, events))
}

/// The events in one step or in two.
fn parted(rng: &mut Rng, transition: usize, events: usize) -> Vec<Vec<usize>> {
    let first = rng.between(0, events);
    [first, events - first].into_iter().filter(|size| *size > 0).map(|size| vec![transition; size]).collect()
}

/// Every place is filled by 16 or a little less: 128 events of a step make up to 65,536, which 16 bits do not hold.
fn flood(rng: &mut Rng) -> (NetPlan, Vec<Vec<usize>>) {
    let weight = |p: usize, rng: &mut Rng| (('O', 0, p), if rng.below(60) == 0 { WEIGHT - 1 } else { WEIGHT });
    let events = rng.pick(&[EVENTS, EVENTS, EVENTS, EVENTS - 1, 64, 16, 1]);
    let mut tokens = vec![0; PLACES];
    tokens[rng.below(PLACES)] = rng.pick(&[EVENTS, 256, TOKENS]);
    let store = tokens.iter().position(|tokens| *tokens > 0).expect("the store");
    let plan = NetPlan {
        tokens,
        inputs: vec![1 << store],
        outputs: vec![!0],
        inhibitors: vec![0],
        reads: vec![0],
        weights: (0..PLACES).map(|p| weight(p, rng)).collect(),
    };
    (plan, vec![vec![0; events]])
}

/// As many tokens as so many events take, or one less; among it sums that eight bits do not hold.
fn tokens(rng: &mut Rng) -> (NetPlan, Vec<Vec<usize>>) {
    let weight = rng.between(2, WEIGHT);
    let events = rng.between(1, TOKENS / weight).min(EVENTS);
    let plan = NetPlan {
        tokens: vec![weight * events - rng.below(2), 0],
        inputs: vec![1],
        outputs: vec![2],
        inhibitors: vec![0],
        reads: vec![0],
        weights: [(('I', 0, 0), weight)].into(),
    };
    (plan, vec![vec![0; events]])
}

/// One step makes what the next takes, or one less: among it sums that eight bits do not hold.
fn refilled(rng: &mut Rng) -> (NetPlan, Vec<Vec<usize>>) {
    let (made, taken) = (rng.between(8, WEIGHT), rng.between(2, WEIGHT));
    let fillers = rng.between(256 / made, 320 / made);
    let takers = (made * fillers / taken + rng.below(2)).min(EVENTS - fillers);
    let plan = NetPlan {
        tokens: vec![fillers, 0, 0],
        inputs: vec![1, 2],
        outputs: vec![2, 4],
        inhibitors: vec![0, rng.pick(&[0, 4])],
        reads: vec![0, 0],
        weights: [(('O', 0, 1), made), (('I', 1, 1), taken)].into(),
    };
    (plan, vec![vec![0; fillers], vec![1; takers]])
}

/// Transition 0 fills the place that inhibits it, and transition 1 fills it too: n events of the one and m of the other, in one
/// step, have n(n-1) marks for each condition that the one makes and nm for each that the other does.
fn own_marks(rng: &mut Rng) -> (NetPlan, Vec<Vec<usize>>) {
    let weight = rng.pick(&[1, 2, 4, 8, WEIGHT, WEIGHT]);
    let most = (2..EVENTS).take_while(|n| n * (n - 1) * weight <= MARKS).last().expect("two events");
    let watchers = rng.between(most - 1, most);
    let missing = MARKS - watchers * (watchers - 1) * weight;
    let other = rng.between(1, WEIGHT);
    let fillers = (missing / (watchers * other) + rng.below(2)).min(EVENTS - watchers);
    let plan = NetPlan {
        tokens: vec![watchers + fillers, 0],
        inputs: vec![1, 1],
        outputs: vec![2, 2],
        inhibitors: vec![2, 0],
        reads: vec![0, 0],
        weights: [(('O', 0, 1), weight), (('O', 1, 1), other)].into(),
    };
    let mut step = [vec![0; watchers], vec![1; fillers]].concat();
    rng.shuffle(&mut step);
    (plan, vec![step])
}

/// Would the step make more conditions than a record may have? Of a net without weights it is not asked: its runs stay as they were.
pub fn passes(plan: &NetPlan, made: usize, step: &[usize]) -> bool {
    !plan.weights.is_empty() && made + outputs(plan, step) > CONDITIONS
}

/// What the step makes at all places.
pub fn outputs(plan: &NetPlan, step: &[usize]) -> usize {
    step.iter().map(|t| (0..plan.places()).map(|p| plan.weight('O', *t, p)).sum::<usize>()).sum()
}

/// One event has a condition more or fewer than it had, as an input or an output, or two events exchange one for none.
pub fn break_count(rng: &mut Rng, plan: &mut RecordPlan) {
    if plan.conditions.is_empty() || plan.events.is_empty() {
        return;
    }
    let at = rng.below(plan.conditions.len());
    let other = rng.below(plan.events.len());
    let ConditionPlan { place, producer, consumer } = plan.conditions[at].clone();
    let alike: Vec<usize> = (0..plan.conditions.len()).filter(|c| plan.conditions[*c].place == place && plan.conditions[*c].consumer.is_none()).collect();
    match rng.below(6) {
        0 => plan.conditions[at].consumer = None,
        1 => plan.conditions[at].consumer = Some(other),
        2 if !alike.is_empty() => plan.conditions[rng.pick(&alike)].consumer = consumer.or(Some(other)),
        3 => plan.conditions.push(ConditionPlan { place, producer: producer.or(Some(other)), consumer: None }),
        4 => plan.conditions[at].producer = producer.map(|_| other),
        _ => leave_out(plan, at),
    }
}

/// The record without a condition and its marks, and the later ones called by one less.
fn leave_out(plan: &mut RecordPlan, condition: usize) {
    plan.conditions.remove(condition);
    plan.marks.retain(|mark| mark.condition != condition);
    plan.marks.iter_mut().filter(|mark| mark.condition > condition).for_each(|mark| mark.condition -= 1);
}

/// A line's letter and its two ends, without a weight.
pub fn ends(line: &str) -> &str {
    let third = line.match_indices(',').nth(2);
    &line[..third.map_or(line.len(), |(at, _)| at)]
}

/// The net's text with a weight put on an arc of any kind, mostly a wrong one: in its place, or on a line more for the same arc or
/// for one that is not declared.
pub fn refused_text(rng: &mut Rng, text: &[u8]) -> Vec<u8> {
    let text = String::from_utf8_lossy(text);
    let mut lines: Vec<String> = text.lines().map(String::from).collect();
    let arcs: Vec<usize> = (0..lines.len()).filter(|at| lines[*at].starts_with(['I', 'O', 'H', 'R'])).collect();
    let Some(at) = arcs.get(rng.below(arcs.len().max(1))).copied() else {
        return format!("{text}I,0,0,{}\n", rng.pick(&WEIGHTS)).into_bytes();
    };
    let weight = if rng.chance(40) { rng.pick(&["0", "17"]) } else { rng.pick(&WEIGHTS) };
    let arc = ends(&lines[at]).to_string();
    match rng.below(6) {
        0..=2 => lines[at] = format!("{arc},{weight}"),
        3 => lines.insert(at, format!("{}{},{weight}", rng.pick(&['I', 'O']), &arc[1..])),
        4 => lines.insert(rng.between(at + 1, lines.len()), format!("{arc},{weight}")),
        _ => lines.insert(at + 1, format!("{},{weight}", rng.pick(&["I,99,0", "O,0,99", "I,0,99", "O,99,0", "I,0", "O,0"]))),
    }
    lines.iter().map(|line| format!("{line}\n")).collect::<String>().into_bytes()
}

/// Cases, each with the same where the weight 1 is written on some arcs of the net that have none; the program's where it reads both
/// forms.
pub fn two_spellings(rng: &mut Rng) -> Vec<(Case, Case)> {
    let mut pairs = Vec::new();
    for case in round_with(rng, Requests::ALL) {
        let share = rng.pick(&[20, 50, 100]);
        let mut other = case.clone();
        other.texts[0] = with_ones(rng, &case.texts[0], share);
        let read = case.operation != Operation::Program || other.texts[0].len() <= LONGEST_INPUT;
        if other != case && read {
            pairs.push((case, other));
        }
    }
    pairs
}

/// The text with the weight 1 on so many percent of the well-formed lines of arcs that may have one and have none.
fn with_ones(rng: &mut Rng, text: &[u8], percent: usize) -> Vec<u8> {
    let mut spelled = Vec::with_capacity(text.len());
    for line in text.split_inclusive(|byte| *byte == 10) {
        let end = line.len() - line.iter().rev().take_while(|byte| [10, 13].contains(*byte)).count();
        spelled.extend(&line[..end]);
        if is_arc(&line[..end]) && rng.chance(percent) {
            spelled.extend(b",1");
        }
        spelled.extend(&line[end..]);
    }
    spelled
}

/// Is it a letter that may have a weight and two numbers?
fn is_arc(line: &[u8]) -> bool {
    let number = |piece: &[u8]| (1..=4).contains(&piece.len()) && piece.iter().all(u8::is_ascii_digit) && (piece.len() == 1 || piece[0] != b'0');
    match line.split(|byte| *byte == b',').collect::<Vec<&[u8]>>().as_slice() {
        [b"I" | b"O", one, other] => number(one) && number(other),
        _ => false,
    }
}
