//! Energy texts: figures at every limit in every place, short texts of a few pieces, how texts end, many lines, and the greatest
//! records with figures by which floats are rounded.

use super::{text, widest_run, with_text};
use crate::case::{Case, Operation};
use crate::gen::build;
use crate::gen::energy::FIGURES;
use crate::vectors::{line_of, times, CASE_A, CASE_B, DRIVE, LOOP};

/// For the drive net.
pub const HOLD_UP: &str = "K,3300,12000,5000 W,2500,8 W,4500,24 J,52000";
/// One event of `LOOP`.
const ONCE: &str = "E,0 C,0,-,0 C,0,0,-";

/// A case in which nothing is wrong.
pub fn sound() -> Case {
    Case::new(Operation::Energy, &[&text(DRIVE), &text(CASE_A), &text(HOLD_UP)])
}

pub fn add(cases: &mut Vec<Case>) {
    other_figures(cases);
    two_figures(cases);
    short_texts(cases);
    text_ends(cases);
    line_counts(cases);
    refused_before(cases);
    capacitors(cases);
    greatest(cases);
}

/// Each number of the text in turn: one of many others, or one that is no number.
fn other_figures(cases: &mut Vec<Case>) {
    let case = sound();
    let lines = String::from_utf8_lossy(&case.texts[2]).into_owned();
    for start in lines.match_indices(',').map(|(at, _)| at + 1) {
        let end = lines[start..].find([',', '\n']).map_or(lines.len(), |length| start + length);
        let others = FIGURES.iter().map(|figure| [&lines[..start], figure, &lines[end..]].concat());
        cases.extend(others.map(|text| with_text(&case, 2, text.into_bytes())));
    }
}

/// Voltages around each other and around their limit, and both figures of a load.
fn two_figures(cases: &mut Vec<Case>) {
    let once = |words: String| Case::new(Operation::Energy, &[&text(LOOP), &text(ONCE), &text(&words)]);
    let voltages = [0, 1, 2, 5_000, 4_999, 59_999, 60_000, 60_001, 65_536];
    for full in voltages {
        for cutoff in voltages {
            cases.extend([1, 1_000_000].map(|capacitance| once(format!("K,{capacitance},{full},{cutoff} J,1"))));
        }
    }
    let loads = [0, 1, 2, 4_095, 4_097, 65_535, 65_537, 999_999, 1_000_000, 1_000_001, 9_999_999];
    for power in loads {
        cases.extend(loads.map(|time| once(format!("K,46875,1,0 W,{power},{time}"))));
        cases.push(once(format!("K,1000000,59999,1 J,{power}")));
    }
}

/// Every text of up to five pieces.
fn short_texts(cases: &mut Vec<Case>) {
    let (net, record, drive, turned) = (text(LOOP), text(ONCE), text(DRIVE), text(CASE_B));
    for short in super::returns::every_text(&[b"\r", b"\n", b"K,1,2,1", b"J,1", b"W,2,3"], 5) {
        cases.push(Case::new(Operation::Energy, &[&net, &record, &short]));
    }
    for lines in super::returns::every_text(&[b"K,1,2,1\n", b"J,1\n", b"W,2,3\n", b"J,1,1\n"], 5) {
        cases.push(Case::new(Operation::Energy, &[&net, &record, &lines]));
        cases.push(Case::new(Operation::Energy, &[&drive, &turned, &lines]));
        cases.push(Case::new(Operation::Energy, &[b"", b"", &lines]));
    }
}

/// Texts that end in the middle of something: on guarded pages nothing is there to be read behind.
fn text_ends(cases: &mut Vec<Case>) {
    let (net, record) = (text(LOOP), text(ONCE));
    let ends = ["", ",", "0", "9", "99", "999", "9999", "99999", "999999", "1000000", "9999999", "10000000", "1,", "1,1", "1,60000", "1,1,", "1000000,60000,60000", "1,1,0", "1000000,1000000", "-"];
    let behind = ["", "\r", "\n", "\r\n", "\r\r\n", "\n\r", ",", "\nJ", "\nJ,", "\nJ,1", "\nJ,1\n"];
    for end in ends {
        for more in behind {
            for start in ["K", "K,", "J,", "K,1,1,0\nJ,", "K,1,1,0\nW,", "K,1,1,0\r\nW,1,", "K,1,1,0\nJ", "K,1,1,0\n"] {
                cases.push(Case::new(Operation::Energy, &[&net, &record, format!("{start}{end}{more}").as_bytes()]));
            }
        }
    }
}

/// So many words below a first one.
fn below(first: &str, words: impl IntoIterator<Item = String>) -> Vec<u8> {
    let lines: Vec<String> = [first.to_string()].into_iter().chain(words).collect();
    text(&lines.join(" "))
}

/// A net with so many transitions, and a record with an event of the last.
fn last_transition(transitions: usize) -> (Vec<u8>, Vec<u8>) {
    let declared = (0..transitions).map(|_| "T".to_string());
    let arcs = (0..transitions).map(|t| format!("I,0,{t} O,{t},0"));
    let record = transitions.checked_sub(1).map_or("C,0,-,-".to_string(), |last| format!("E,{last} C,0,-,0 C,0,0,-"));
    (below("P,1", declared.chain(arcs)), text(&record))
}

/// Around the transitions of nets, far past them, and past what 8 and 16 bits count.
fn line_counts(cases: &mut Vec<Case>) {
    for transitions in [0, 1, 2, 31, 32] {
        let (net, record) = last_transition(transitions);
        for lines in (0..36).chain([63, 64, 65, 255, 256, 257]) {
            let loads = (0..lines).map(|_| "W,10,3".to_string());
            cases.push(Case::new(Operation::Energy, &[&net, &record, &below("K,2,1000,0", loads.clone())]));
            cases.push(Case::new(Operation::Energy, &[&net, &record, &below("K,2,1000,0", loads.chain(["J".to_string()]))]));
        }
    }
    let (net, record) = (text(LOOP), text(ONCE));
    for lines in [65_534, 65_535, 65_536, 65_537, 70_000] {
        let many = [&b"K,2,1000,0\n"[..], &b"J,1\n".repeat(lines)].concat();
        cases.push(Case::new(Operation::Energy, &[&net, &record, &many]));
        cases.push(Case::new(Operation::Energy, &[&net, &record, &[&many[..], b"J"].concat()]));
    }
    for long in [b"K".repeat(200_000), b"1".repeat(200_000), line_of('K', 70_000, 1).into_bytes(), [&b"K,1,1,0\nJ,"[..], &b"0".repeat(200_000), b"\n"].concat()] {
        cases.push(Case::new(Operation::Energy, &[&net, &record, &long]));
    }
}

/// The net's refusals and the record's come first, whatever the energy text.
fn refused_before(cases: &mut Vec<Case>) {
    let nets = ["", "x", "P,513", "P,1 T I,1,0", "P,1 T I,0,0 I,0,0", "P,1 T", "P,1 T O,0,0 I,0,0 R,0,0", LOOP];
    let records = ["", "x", "E,1", "E,0 C,0,-,0 C,0,0,- B,1,0 B,1,0", "C,0,-,-", "E,0 C,0,-,0", "E,0 C,0,-,0 C,0,0,- B,1,0", ONCE];
    for net in nets {
        for record in records {
            for energy in ["", "x", "K,0,1,0 J,1", "K,1,1,0", "K,1,1,0 J,1", "K,1,1,0 J,1 J,1", "K,1,1,0 J,1 x"] {
                cases.push(Case::new(Operation::Energy, &[&text(net), &text(record), &text(energy)]));
            }
        }
    }
}

/// Many capacitors, over a run of 128 events that draws the most there is: ties of the difference, and what is beside them.
fn capacitors(cases: &mut Vec<Case>) {
    let net = text(LOOP);
    let record = build(&net, &text(&times(128, "S,0"))).expect("a run of the net");
    let mut add = |words: String| cases.push(Case::new(Operation::Energy, &[&net, &record, &text(&words)]));
    for capacitance in (0..=64).map(|k| 15_625 * k) {
        for off in [-1, 0, 1] {
            let capacitance = i64::from(capacitance) + off;
            for load in ["W,1000000,1000000", "W,999999,1000000", "W,600000,1000000", "W,1000000,499999", "J,1000000", "J,1", "J,0"] {
                add(format!("K,{capacitance},1,0 {load}"));
            }
        }
    }
    for (step, full) in (1..60_000).step_by(997).enumerate() {
        let cutoff = full * (step % 7) / 7;
        add(format!("K,{},{full},{cutoff} W,{},{}", 16_127 * step + 1, 1 + step * 31, 1 + full / 128));
        add(format!("K,{},{full},{cutoff} J,{}", 1_000_000 - step, full));
    }
}

/// The greatest records there are, with other figures for each of 32 transitions.
fn greatest(cases: &mut Vec<Case>) {
    let ring: Vec<String> = (0..32).map(|t| format!("I,{t},{t} O,{t},{}", (t + 1) % 32)).collect();
    let ring = text(&format!("P,1 {} {} {}", times(31, "P,0"), times(32, "T"), ring.join(" ")));
    let once_around = (0..128).map(|event| format!("S,{}", event % 32)).collect::<Vec<String>>().join(" ");
    for (net, log) in [widest_run(), (ring, text(&once_around))] {
        let record = build(&net, &log).expect("the run is one of the net");
        for seed in 0..6 {
            let load = |t: usize| match (t + seed) % 4 {
                0 => format!("J,{}", 1_000_000 - 999 * t - seed),
                1 => format!("W,1000000,{}", 1_000_000 - 7 * t),
                _ => format!("W,{},{}", 12_345 * (seed + 1) + t, 54_321 + 101 * t),
            };
            let loads: Vec<String> = (0..32).map(load).collect();
            let words = text(&format!("K,{},60000,{} {}", 999_999 - seed, 59_999 / (seed + 1), loads.join(" ")));
            cases.push(Case::new(Operation::Energy, &[&net, &record, &words]));
            cases.push(Case::new(Operation::Energy, &[&net, &[&record[..], b"x\n"].concat(), &words]));
            cases.push(Case::new(Operation::Energy, &[&net, &record[..record.len() - 1], &words]));
        }
    }
}
