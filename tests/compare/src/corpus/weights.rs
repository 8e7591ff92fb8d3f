//! Arc weights (02, 2026-06): every weight on either arc, every two refusals on one line, sums at every limit from both sides, and
//! records with any number of conditions at an event.

use super::{around, text};
use crate::case::{Case, Operation};
use crate::gen::build;
use crate::gen::weights::WEIGHTS;
use crate::vectors::{line_of, times};

/// Transition 0 makes two of what transition 1 takes four and makes two of another; transition 1 reads what transition 2 takes, which
/// waits for place 1 to be empty.
const SHARED: &str = "P,4 P,0 P,0 P,1 P,0 T T T I,0,0 O,0,1,2 I,1,1,4 O,1,2,2 R,3,1 I,3,2,1 O,2,4 H,1,2";
const SHARED_LOG: &str = "S,0,0 S,1 S,2";
const SHARED_RECORD: &str =
    "E,0 E,0 E,1 E,2 C,0,-,0 C,0,-,1 C,0,-,- C,0,-,- C,3,-,3 C,1,0,2 C,1,0,2 C,1,1,2 C,1,1,2 C,2,2,- C,2,2,- C,4,3,- R,4,2 A,5,3 A,6,3 A,7,3 A,8,3";

/// A case of each operation that reads a net, in which nothing is wrong.
pub fn sound() -> Vec<Case> {
    let (net, record) = (text(SHARED), text(SHARED_RECORD));
    vec![
        Case::new(Operation::ReadNet, &[&net]),
        Case::new(Operation::Build, &[&net, &text(SHARED_LOG)]),
        Case::new(Operation::Check, &[&net, &record]),
        Case::new(Operation::Replay, &[&net, &record, &text("G,1 G,0 G,2 G,3")]),
        Case::new(Operation::Arrange, &[&net, &record]),
        Case::new(Operation::Energy, &[&net, &record, &text("K,3300,12000,5000 J,1 J,20 W,3,100")]),
        Case::new(Operation::Program, &[&text(&format!("{SHARED} = {SHARED_LOG}"))]),
    ]
}

pub fn add(cases: &mut Vec<Case>) {
    every_weight(cases);
    every_byte(cases);
    two_refusals(cases);
    weights_of_two(cases);
    condition_limits(cases);
    token_limits(cases);
    mark_limits(cases);
    sixteen_bits(cases);
    other_counts(cases);
    ring(cases);
}

/// Every weight and every spelling of one, on each weighted arc and on arcs that have none, in every operation.
fn every_weight(cases: &mut Vec<Case>) {
    let numbers = (0..=300).map(|weight: usize| weight.to_string()).chain(WEIGHTS.map(String::from));
    for weight in numbers {
        cases.push(Case::new(Operation::ReadNet, &[&text(&format!("P,1 T I,0,0,{weight} O,0,0"))]));
        cases.push(Case::new(Operation::ReadNet, &[&text(&format!("P,1 T I,0,0 O,0,0,{weight}"))]));
    }
    let few = (0..=18).map(|weight: usize| weight.to_string()).chain(WEIGHTS.map(String::from));
    for weight in few {
        for case in sound() {
            let lines: Vec<&[u8]> = case.texts[0].split_inclusive(|byte| *byte == 10).collect();
            let arcs = (0..lines.len()).filter(|at| b"IOHR".contains(&lines[*at][0]));
            cases.extend(arcs.map(|at| {
                let arc = String::from_utf8_lossy(lines[at]);
                let line = format!("{},{weight}\n", crate::gen::weights::ends(arc.trim_end()));
                Case { texts: [vec![[lines[..at].concat(), line.into_bytes(), lines[at + 1..].concat()].concat()], case.texts[1..].to_vec()].concat(), ..case.clone() }
            }));
        }
    }
}

/// Every byte that there is, at every place of a net with weights.
fn every_byte(cases: &mut Vec<Case>) {
    let net = text("P,9 P,0 T I,0,0,12 O,0,1,3");
    for at in 0..net.len() {
        for byte in 0..=255 {
            let mut changed = net.clone();
            changed[at] = byte;
            cases.push(Case::new(Operation::ReadNet, &[&changed]));
        }
    }
}

/// Every arc line of a few ends and weights, below every arc that it could repeat or be at odds with.
fn two_refusals(cases: &mut Vec<Case>) {
    let above = ["", " I,0,0", " I,0,0,3", " O,0,0", " O,0,0,16", " R,0,0", " H,0,0", " I,0,0,2 O,0,0", " R,0,0 O,0,0,2"];
    let weights = ["", ",", ",0", ",1", ",2", ",16", ",17", ",9999", ",00", ",01", ",017", ",00017", ",10000", ",-", ",1,1", ",17,17"];
    for above in above {
        for letter in ["I", "O", "H", "R"] {
            for ends in ["0,0", "1,0", "0,1", "9,9", "00,0", "0,-", "9999,0", "0"] {
                for weight in weights {
                    cases.push(Case::new(Operation::ReadNet, &[&text(&format!("P,1 T{above} {letter},{ends}{weight}"))]));
                }
            }
        }
    }
}

/// Every two weights of the arcs of a transition, with tokens for one event, for two, and one less.
fn weights_of_two(cases: &mut Vec<Case>) {
    for input in 1..=16 {
        for output in 1..=16 {
            for tokens in [input - 1, input, 2 * input - 1, 2 * input] {
                let net = format!("P,{tokens} P,0 T I,0,0,{input} O,0,1,{output} H,1,0");
                for log in ["S,0", "S,0,0", "S,0 S,0"] {
                    cases.push(Case::new(Operation::Build, &[&text(&net), &text(log)]));
                }
                cases.push(Case::new(Operation::Program, &[&text(&format!("{net} = S,0,0"))]));
            }
        }
    }
}

fn play(net: &str, log: &str, cases: &mut Vec<Case>) {
    cases.push(Case::new(Operation::Build, &[&text(net), &text(log)]));
    cases.push(Case::new(Operation::Program, &[&text(&format!("{net} = {log}"))]));
}

/// 511, 512 and 513 conditions, or as near as the weight comes, in one step and line by line.
fn condition_limits(cases: &mut Vec<Case>) {
    for weight in 2..=16 {
        for events in [1, 2, 16, 28] {
            for passed in 0..3 {
                let net = format!("P,{} P,0 T I,0,0 O,0,1,{weight}", 511 + passed - weight * events);
                play(&net, &line_of('S', events, 0), cases);
                play(&net, &times(events, "S,0"), cases);
                let net = format!("P,{} P,0 P,0 T I,0,0 O,0,1,{weight} O,0,2", 511 + passed - (weight + 1) * events);
                play(&net, &line_of('S', events, 0), cases);
            }
        }
    }
    let (net, log) = (text("P,32 P,0 P,0 T T I,0,0 O,0,1,15 I,1,1,15 O,1,2"), text(&format!("{} {}", times(28, "S,0"), times(28, "S,1"))));
    let record = build(&net, &log).expect("the run is one of the net");
    around(&net, &record, cases);
}

/// As many tokens as a step takes, one less and one more, with one transition and with two.
fn token_limits(cases: &mut Vec<Case>) {
    for weight in 1..=16 {
        for events in [1, 2, 15, 16, 17, 31, 32] {
            for tokens in weight * events - 1..=(weight * events + 1).min(512) {
                play(&format!("P,{tokens} P,0 T I,0,0,{weight} O,0,1"), &line_of('S', events, 0), cases);
                let other = 17 - weight;
                let net = format!("P,{} P,0 T T I,0,0,{weight} O,0,1 I,0,1,{other} O,1,1", (tokens + other).min(512));
                play(&net, &format!("{},1", line_of('S', events, 0)), cases);
            }
        }
    }
    for events in [33, 127, 128] {
        play("P,512 P,0 T I,0,0,16 O,0,1", &line_of('S', events, 0), cases);
    }
}

/// Events that fill what inhibits them, by weight, and others that fill it too: around 4,096 marks, own outputs not counted.
fn mark_limits(cases: &mut Vec<Case>) {
    for weight in 1..=16 {
        let most = (2..128).take_while(|n| n * (n - 1) * weight <= 4_096).last().expect("two events");
        for watchers in [most - 1, most, most + 1] {
            let missing = 4_096usize.saturating_sub(watchers * (watchers - 1) * weight);
            for other in [1, 16] {
                let least = (missing / (watchers * other)).min(60);
                for fillers in least.saturating_sub(1)..least + 2 {
                    let net = format!("P,{} P,0 P,1 T T T I,0,0 O,0,1,{weight} H,1,0 I,0,1 O,1,1,{other} I,0,2 O,2,2 R,2,2", watchers + fillers + 1);
                    let step = format!("{}{}", line_of('S', watchers, 0), ",1".repeat(fillers));
                    play(&net, &step, cases);
                    play(&net, &format!("{step} S,2"), cases);
                }
            }
        }
    }
    let (net, log) = (text("P,17 P,0 T T I,0,0 O,0,1,16 H,1,0 I,0,1 O,1,1,16"), text(&format!("{},1", line_of('S', 16, 0))));
    let record = build(&net, &log).expect("the run is one of the net");
    around(&net, &record, cases);
}

/// A step that makes up to 65,536 in 32 places, or 2,048 in one, and one that takes as much as that.
fn sixteen_bits(cases: &mut Vec<Case>) {
    let arcs = |letter: &str, weight: usize| (0..32).map(|p| if letter == "O" { format!("O,0,{p},{weight}") } else { format!("I,{p},0,{weight}") }).collect::<Vec<String>>().join(" ");
    for weight in [8, 15, 16] {
        for events in [16, 32, 64, 127, 128] {
            for tokens in [128, 129, 256, 384, 511, 512] {
                play(&format!("P,{tokens} {} T I,0,0 {}", times(31, "P,0"), arcs("O", weight)), &line_of('S', events, 0), cases);
                play(&format!("P,{tokens} P,0 T I,0,0 O,0,1,{weight}"), &line_of('S', events, 0), cases);
            }
            play(&format!("{} T {} O,0,0", times(32, "P,16"), arcs("I", weight)), &line_of('S', events, 0), cases);
        }
    }
    play(&format!("{} T {} O,0,0", times(32, "P,16"), arcs("I", 16)), "S,0", cases);
    play(&format!("{} T {} O,0,0", times(31, "P,16"), (0..31).map(|p| format!("I,{p},0,16")).collect::<Vec<String>>().join(" ")), "S,0", cases);
}

/// 32 places in a ring, and 32 transitions that take all of a place and fill the next, each place with as many as its number says:
/// every row and column of the net has a weight of its own.
fn ring(cases: &mut Vec<Case>) {
    let weight = |p: usize| p % 32 % 16 + 1;
    let arcs: Vec<String> = (0..32).map(|t| format!("I,{t},{t},{} O,{t},{},{} H,{},{t}", weight(t), (t + 1) % 32, weight(t + 1), (t + 31) % 32)).collect();
    let net = text(&format!("{} P,{} {} {}", times(31, "P,0"), weight(31), times(32, "T"), arcs.join(" ")));
    for events in [1, 2, 17, 32, 59, 60, 61, 62] {
        let log = text(&(0..events).map(|event| format!("S,{}", (event + 31) % 32)).collect::<Vec<String>>().join(" "));
        cases.push(Case::new(Operation::Build, &[&net, &log]));
        cases.push(Case::new(Operation::Program, &[&[&net[..], b"=\n", &log].concat()]));
        if let Some(record) = build(&net, &log) {
            around(&net, &record, cases);
        }
    }
}

/// A flush of four blocks that has taken and made any numbers of them, in each operation that takes a record.
fn other_counts(cases: &mut Vec<Case>) {
    let net = text("P,6 P,0 P,0 T T I,0,0 O,0,1 I,1,1,4 O,1,0,4 O,1,2");
    let written = (0..6).map(|event| format!("C,0,-,{event}")).collect::<Vec<String>>().join(" ");
    for taken in 0..=6 {
        for made in 0..=6 {
            let dirty = (0..6).map(|event| if event < taken { format!("C,1,{event},6") } else { format!("C,1,{event},-") }).collect::<Vec<String>>().join(" ");
            let free = times(made, "C,0,6,-");
            let record = format!("{} E,1 {written} {dirty} {free} C,2,6,-", times(6, "E,0")).replace("  ", " ");
            let record = text(&record);
            cases.push(Case::new(Operation::Check, &[&net, &record]));
            cases.push(Case::new(Operation::Arrange, &[&net, &record]));
            cases.push(Case::new(Operation::Replay, &[&net, &record, &text("G,0,1,2,3,4,5 G,6")]));
            cases.push(Case::new(Operation::Energy, &[&net, &record, &text("K,1,2,1 J,1 J,2")]));
        }
    }
}

#[cfg(test)]
mod tests {
    use super::*;
    use crate::case::run;
    use crate::sim::SIMULATOR;
    use std::collections::BTreeMap;

    /// The sound cases are sound, and the others meet both sides of each limit.
    #[test]
    fn limits_are_met_from_both_sides() {
        for case in sound() {
            assert_eq!(run(&SIMULATOR, &case).refusal(), (0, 0), "{case}");
        }
        let limits: [(fn(&mut Vec<Case>), &[u64]); 7] =
            [(ring, &[0, 26]), (two_refusals, &[11, 13, 14, 15, 51, 54, 0]), (condition_limits, &[0, 26]), (token_limits, &[0, 24]), (mark_limits, &[0, 27]), (sixteen_bits, &[24, 26, 0]), (other_counts, &[0, 36])];
        for (add, numbers) in limits {
            let mut cases = Vec::new();
            add(&mut cases);
            let mut met: BTreeMap<u64, usize> = BTreeMap::new();
            cases.iter().for_each(|case| *met.entry(run(&SIMULATOR, case).refusal().0).or_default() += 1);
            assert!(numbers.iter().all(|number| met.contains_key(number)), "{met:?} and not all of {numbers:?}");
        }
    }
}
