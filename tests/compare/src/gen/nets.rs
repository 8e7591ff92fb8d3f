//! Random nets.

use super::{readers, weights, Size};
use crate::model::{NetPlan, Places};
use crate::rng::Rng;

/// A net that meets no refusal, and in most cases one that can take a step.
pub fn net(rng: &mut Rng, size: Size) -> NetPlan {
    let family = if rng.chance(50) { any_net } else { chains };
    let mut plan = with_requests(rng, size, family);
    for _ in 0..rng.below(6) {
        if plan.can_step() {
            break;
        }
        plan = with_requests(rng, size, family);
    }
    plan
}

/// With read arcs and weights, where the size has them.
fn with_requests(rng: &mut Rng, size: Size, family: fn(&mut Rng, Size) -> NetPlan) -> NetPlan {
    let mut plan = family(rng, size);
    plan.reads = vec![0; plan.transitions()];
    if size.reads {
        readers::add_arcs(rng, &mut plan);
    }
    if size.weights {
        weights::add(rng, &mut plan);
    }
    plan
}

/// A store of many tokens, events that watch two places, fill them and empty them: runs of it come to the limits of
/// events, conditions and marks.
pub fn store(rng: &mut Rng) -> NetPlan {
    let tokens = rng.pick(&[140, 160, 180, 200, 300, 384, 385, 512]);
    let (first, second) = (0b0100, 0b1000);
    NetPlan {
        tokens: vec![tokens, 0, 0, 0],
        inputs: vec![1, 1, first | second, 1],
        outputs: vec![0b0010, first | second, 0b0010, rng.pick(&[first, second, 0b0010])],
        inhibitors: vec![first | second, 0, rng.pick(&[0, 0b0010]), rng.pick(&[0, first, second, first | second])],
        reads: vec![0; 4],
        ..NetPlan::default()
    }
}

/// Like the drive net: tokens move along chains of places, some of them closed, and the places, mostly empty ones, inhibit
/// transitions of any chain. So places are filled and emptied again, and there are marks of both kinds.
fn chains(rng: &mut Rng, size: Size) -> NetPlan {
    let inhibited = rng.pick(&[10, 20, 40]);
    let mut plan = NetPlan::default();
    while plan.places() + 2 <= size.places && plan.transitions() < size.transitions && (plan.places() == 0 || rng.chance(80)) {
        add_chain(rng, size, &mut plan);
    }
    for t in 0..plan.transitions() {
        let (inputs, tokens) = (plan.inputs[t], plan.tokens.clone());
        let percent = |p: usize| match (inputs >> p & 1, tokens[p]) {
            (1, _) => 1,
            (_, 0) => inhibited,
            _ => inhibited / 4,
        };
        plan.inhibitors.push(some(rng, plan.places(), percent));
    }
    (0..rng.below(3)).for_each(|_| add_guard(rng, &mut plan));
    plan
}

/// An empty place between two transitions inhibits a third: runs fill it and empty it, and the third comes before or after.
fn add_guard(rng: &mut Rng, plan: &mut NetPlan) {
    let all = |arcs: &[Places]| arcs.iter().fold(0, |all, places| all | places);
    let between = all(&plan.inputs) & all(&plan.outputs);
    let empty: Vec<usize> = (0..plan.places()).filter(|p| plan.tokens[*p] == 0 && between >> p & 1 == 1).collect();
    let Some(place) = empty.get(rng.below(empty.len().max(1))) else {
        return;
    };
    let apart = |t: &usize| (plan.inputs[*t] | plan.outputs[*t]) >> place & 1 == 0;
    let others: Vec<usize> = (0..plan.transitions()).filter(apart).collect();
    if !others.is_empty() {
        plan.inhibitors[rng.pick(&others)] |= 1 << place;
    }
}

fn add_chain(rng: &mut Rng, size: Size, plan: &mut NetPlan) {
    let first = plan.places();
    let length = rng.between(2, 4).min(size.places - first).min(size.transitions - plan.transitions() + 1);
    plan.tokens.push(rng.between(1, size.tokens.min(12)));
    for place in first + 1..first + length {
        plan.tokens.push(if rng.chance(12) { 1 } else { 0 });
        plan.inputs.push(1 << (place - 1));
        plan.outputs.push(1 << place);
    }
    if rng.chance(25) && plan.transitions() < size.transitions {
        plan.inputs.push(1 << (first + length - 1));
        plan.outputs.push(1 << first);
    }
}

/// Every transition has an input and an output. Inputs lie mostly at marked places, so that there is something to
/// take, inhibitors mostly at empty ones, so that they do not forbid everything.
fn any_net(rng: &mut Rng, size: Size) -> NetPlan {
    let places = at_most(rng, size.places);
    let transitions = at_most(rng, size.transitions);
    let (dense, inhibited) = (rng.pick(&[0, 0, 10, 25]), rng.pick(&[0, 15, 30, 50]));
    let mut plan = NetPlan { tokens: tokens(rng, places, size.tokens), ..NetPlan::default() };
    let marked: Vec<usize> = (0..places).filter(|p| plan.tokens[*p] > 0).collect();
    for _ in 0..transitions {
        let input = if marked.is_empty() || rng.chance(30) { rng.below(places) } else { rng.pick(&marked) };
        plan.inputs.push(1 << input | some(rng, places, |_| dense));
        plan.outputs.push(1 << rng.below(places) | some(rng, places, |_| dense));
        let tokens = plan.tokens.clone();
        plan.inhibitors.push(some(rng, places, |p| if tokens[p] == 0 { inhibited } else { inhibited / 8 }));
    }
    plan
}

/// Mostly anything from 1 on, now and then the most.
fn at_most(rng: &mut Rng, most: usize) -> usize {
    if rng.chance(15) { most } else { rng.between(1, most) }
}

pub fn some(rng: &mut Rng, places: usize, percent: impl Fn(usize) -> usize) -> Places {
    let bits = (0..places).filter(|p| rng.chance(percent(*p))).map(|p| 1 << p);
    bits.fold(0, |all, bit: Places| all | bit)
}

/// About half of the places are empty: there, inhibitor arcs let their transitions go. At most 512 tokens in all.
fn tokens(rng: &mut Rng, places: usize, most: usize) -> Vec<usize> {
    let mut left = 512;
    let mut tokens = Vec::new();
    for _ in 0..places {
        let count = if rng.chance(50) { 0 } else { rng.between(1, most).min(left) };
        left -= count;
        tokens.push(count);
    }
    tokens
}

/// The net's text with lines put in that meet each of 11 to 15 in its turn.
pub fn refused_text(rng: &mut Rng, text: &[u8]) -> Vec<u8> {
    let (places, transitions) = ("P,0\n".repeat(33), "T\n".repeat(33));
    let more = rng.pick(&["P,513\n", "P,512\nP,1\n", &places, &transitions, "T\n", "I,0,0\nI,0,0\n", "O,0,0\nO,0,0\n", "H,99,0\n", "O,0,32\n", "\n", "I,0\n"]);
    let mut lines: Vec<&[u8]> = text.split_inclusive(|byte| *byte == 10).collect();
    let at = rng.between(0, lines.len());
    lines.insert(at, more.as_bytes());
    lines.concat()
}

/// The net's text: arcs by transition, arcs in any order, or every arc as soon as its ends are declared.
pub fn text(rng: &mut Rng, plan: &NetPlan) -> Vec<u8> {
    if rng.chance(30) {
        return plan.text();
    }
    let shuffled = plan.shuffled_text(rng);
    if rng.chance(50) { early_arcs(rng, &shuffled) } else { shuffled }
}

/// Moves lines so that places, transitions and arcs alternate, each arc still below what it names.
fn early_arcs(rng: &mut Rng, text: &[u8]) -> Vec<u8> {
    let text = String::from_utf8(text.to_vec()).expect("plain text");
    let (mut arcs, mut things): (Vec<&str>, Vec<&str>) = text.lines().partition(|line| line.starts_with(['I', 'O', 'H', 'R']));
    rng.shuffle(&mut things);
    // Shuffling would give places other tokens: put the place lines back in their order.
    let mut places = text.lines().filter(|line| line.starts_with('P'));
    things.iter_mut().filter(|line| line.starts_with('P')).for_each(|line| *line = places.next().expect("as many places"));
    let (mut lines, mut declared) = (Vec::new(), (0, 0));
    for thing in things {
        lines.push(thing);
        if thing == "T" { declared.1 += 1 } else { declared.0 += 1 }
        let (ready, later): (Vec<&str>, Vec<&str>) = arcs.into_iter().partition(|arc| names_declared(arc, declared));
        lines.extend(ready);
        arcs = later;
    }
    lines.iter().map(|line| format!("{line}\n")).collect::<String>().into_bytes()
}

fn names_declared(arc: &str, (places, transitions): (usize, usize)) -> bool {
    let ends: Vec<usize> = arc[2..].split(',').map(|end| end.parse().expect("a number")).collect();
    let (place, transition) = if arc.starts_with('O') { (ends[1], ends[0]) } else { (ends[0], ends[1]) };
    place < places && transition < transitions
}
