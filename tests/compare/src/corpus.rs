//! Fixed cases without an answer written out: texts damaged at every byte, and the limits from both sides.

mod energy;
mod loops;
mod returns;
mod weights;

use crate::case::{lent, run, Case, Operation};
use crate::gen::{build, BYTES, NUMBERS};
use crate::sim::SIMULATOR;
use crate::vectors::{line_of, times, Text, CASE_A, CASE_B, DRIVE, MUTUAL, MUTUAL_RECORD};

pub fn all() -> Vec<Case> {
    let mut cases = Vec::new();
    for case in sound() {
        for which in 0..case.texts.len() {
            let put = |cases: &mut Vec<Case>, changed: Vec<Vec<u8>>| cases.extend(changed.into_iter().map(|text| with_text(&case, which, text)));
            put(&mut cases, other_bytes(&case.texts[which]));
            put(&mut cases, other_numbers(&case.texts[which]));
            put(&mut cases, other_lines(&case.texts[which]));
        }
        rooms(&case, &mut cases);
    }
    every_byte(&mut cases);
    net_limits(&mut cases);
    log_limits(&mut cases);
    record_limits(&mut cases);
    ring(&mut cases);
    reading_arcs(&mut cases);
    reading_limits(&mut cases);
    lines_asked(&mut cases);
    long_texts(&mut cases);
    returns::add(&mut cases);
    loops::add(&mut cases);
    energy::add(&mut cases);
    weights::add(&mut cases);
    cases
}

fn text(words: &str) -> Vec<u8> {
    Text::from(words).0
}

/// Transition 0 makes what transition 1 reads and transition 2 takes; transition 1 waits for place 5 to be empty, which
/// transition 2 fills. The record of `S,0 S,1,2`.
const READING: &str = "P,1 P,0 P,0 P,1 P,0 P,0 T T T I,0,0 O,0,1 I,3,1 O,1,4 R,1,1 H,5,1 I,1,2 O,2,2 O,2,5";
const READING_RECORD: &str = "E,0 E,1 E,2 C,0,-,0 C,3,-,1 C,1,0,2 C,4,1,- C,2,2,- C,5,2,- R,2,1 B,5,1";

/// A case of each operation in which nothing is wrong.
fn sound() -> Vec<Case> {
    let (drive, input) = (text(DRIVE), text(&format!("{DRIVE} = S,0 S,1,0 S,2")));
    let mut sound = vec![
        Case::new(Operation::ReadNet, &[&drive]),
        Case::new(Operation::Build, &[&drive, &text("S,0 S,1 S,2")]),
        Case::new(Operation::Check, &[&drive, &text(CASE_A)]),
        Case::new(Operation::Check, &[&text(MUTUAL), &text(MUTUAL_RECORD)]),
        Case::new(Operation::Replay, &[&drive, &text(CASE_B), &text("G,1 G,0")]),
        Case::new(Operation::Arrange, &[&drive, &text(CASE_A)]),
        Case::new(Operation::Program, &[&input]),
        Case::new(Operation::ReadNet, &[&text(READING)]),
        Case::new(Operation::Build, &[&text(READING), &text("S,0 S,1,2")]),
        Case::new(Operation::Check, &[&text(READING), &text(READING_RECORD)]),
        Case::new(Operation::Replay, &[&text(READING), &text(READING_RECORD), &text("G,0 G,1 G,2")]),
        Case::new(Operation::Program, &[&text(&format!("{READING} = S,0 S,1,2"))]),
        Case::new(Operation::RefusedLine, &[&drive, &text(CASE_A)]).asking(1, 4),
        energy::sound(),
    ];
    sound.extend(weights::sound());
    sound
}

fn with_text(case: &Case, which: usize, text: Vec<u8>) -> Case {
    let mut changed = case.clone();
    changed.texts[which] = text;
    changed
}

/// The text cut at every byte, and at every byte each of many bytes put in its place, put before it, or none.
fn other_bytes(text: &[u8]) -> Vec<Vec<u8>> {
    let mut changed = Vec::new();
    for at in 0..text.len() {
        changed.push(text[..at].to_vec());
        changed.push([&text[..at], &text[at + 1..]].concat());
        changed.extend(BYTES.map(|byte| [&text[..at], &[byte], &text[at + 1..]].concat()));
        changed.extend(b"0,-\n\r=".map(|byte| [&text[..at], &[byte], &text[at..]].concat()));
    }
    changed
}

/// Each number of the text in turn: another one, one that is too long or has needless zeros, or none.
fn other_numbers(text: &[u8]) -> Vec<Vec<u8>> {
    let digit = |at: usize| text.get(at).is_some_and(|byte| byte.is_ascii_digit());
    let starts = (0..text.len()).filter(|at| digit(*at) && !(*at > 0 && digit(at - 1)));
    let changed = starts.flat_map(|start| {
        let end = (start..).find(|at| !digit(*at)).expect("a text ends");
        let zeros = ["0", "00", "000"].map(|zeros| [&text[..start], zeros.as_bytes(), &text[start..]].concat());
        let others = NUMBERS.map(|number| [&text[..start], number.as_bytes(), &text[end..]].concat());
        zeros.into_iter().chain(others)
    });
    changed.collect()
}

/// Each line in turn left out, doubled, left empty, put first, put last, changed with the next, or joined to it.
fn other_lines(text: &[u8]) -> Vec<Vec<u8>> {
    let lines: Vec<&[u8]> = text.split_inclusive(|byte| *byte == 10).collect();
    let mut changed = Vec::new();
    for at in 0..lines.len() {
        let (before, line, after) = (lines[..at].concat(), lines[at], lines[at + 1..].concat());
        let joined = &line[..line.len() - 1];
        changed.push([&before[..], &after].concat());
        changed.push([&before[..], line, line, &after].concat());
        changed.push([&before[..], b"\n", &after].concat());
        changed.push([line, &before, &after].concat());
        changed.push([&before[..], &after, line].concat());
        changed.push([&before[..], joined, &after].concat());
        let next = lines.get(at + 1).copied().unwrap_or_default();
        changed.push([&before[..], next, line, &after[next.len()..]].concat());
    }
    changed
}

/// Every byte that there is, at every place of a text of each kind.
fn every_byte(cases: &mut Vec<Case>) {
    let drive = text(DRIVE);
    let both = "E,2 E,0 E,1 E,2 E,0 C,0,-,1 C,2,-,0 C,2,-,3 C,3,0,- C,1,1,2 C,0,2,4 C,3,3,- C,1,4,- B,4,0 B,7,0 A,4,3 B,7,3";
    let again = text("P,1 P,0 P,2 P,0 T T T I,0,0 O,0,1 I,1,1 O,1,0 I,2,2 O,2,3 H,1,2");
    let whole = [
        (Case::new(Operation::ReadNet, &[&drive]), 0),
        (Case::new(Operation::Build, &[&drive, &text("S,0 S,1 S,2")]), 1),
        (Case::new(Operation::Check, &[&again, &text(both)]), 1),
        (Case::new(Operation::Replay, &[&again, &text(both), &text("G,0 G,1 G,2 G,3,4")]), 2),
        (Case::new(Operation::Program, &[&text("P,1 T I,0,0 O,0,0 = S,0 S,0")]), 0),
        (Case::new(Operation::ReadNet, &[&text(READING)]), 0),
        (Case::new(Operation::Check, &[&text(READING), &text(READING_RECORD)]), 1),
        (energy::sound(), 2),
    ];
    for (case, which) in whole {
        for at in 0..case.texts[which].len() {
            for byte in 0..=255 {
                let mut changed = case.clone();
                changed.texts[which][at] = byte;
                cases.push(changed);
            }
        }
    }
}

/// Buffers around the stated size.
fn rooms(case: &Case, cases: &mut Vec<Case>) {
    if !case.operation.any_room() {
        return;
    }
    let stated = case.operation.stated_room();
    for room in [0, 1, stated / 2, stated - 1, stated, stated + 1, stated + 4_096] {
        cases.push(case.clone().with_room(room));
        let mut broken = case.clone().with_room(room);
        broken.texts[0].insert(0, b'x');
        cases.push(broken);
    }
}

fn net_limits(cases: &mut Vec<Case>) {
    let mut add = |words: String| cases.push(Case::new(Operation::ReadNet, &[&text(&words)]));
    for count in [31, 32, 33, 40] {
        add(times(count, "P,0"));
        add(format!("P,1 {}", times(count, "T")));
        add(format!("{} {}", times(count, "P,1"), times(33, "T")));
        let arcs: Vec<String> = (0..count).map(|t| format!("I,0,{t} O,{t},0")).collect();
        add(format!("P,1 {} {}", times(count, "T"), arcs.join(" ")));
        add(format!("P,1 {} {} x", times(count, "T"), arcs.join(" ")));
    }
    for tokens in [511, 512, 513, 1_000, 9_999] {
        add(format!("P,{tokens}"));
        add(format!("P,0 P,{tokens} P,0"));
        add(format!("P,{} P,12", tokens - 12));
        add(format!("P,{} {}", tokens - 31, times(31, "P,1")));
    }
}

/// A net and a log with so many events (a multiple of four): a quarter watches two places from before they are
/// filled, a quarter fills both, a quarter drains both, and a quarter watches after; so many squared and over four marks.
/// With 128 events the record has 512 conditions and 4,096 marks: the greatest there is.
pub fn watched_run(events: usize) -> (Vec<u8>, Vec<u8>) {
    let quarter = events / 4;
    let tokens = 11 * quarter;
    let net = format!("P,{tokens} P,0 P,0 P,0 P,0 T T T I,0,0 O,0,1 H,2,0 H,3,0 I,0,1 O,1,2 O,1,3 I,2,2 I,3,2 O,2,4");
    let log = [0, 1, 2, 0].map(|transition| times(quarter, &format!("S,{transition}"))).join(" ");
    (text(&net), text(&log))
}

/// The same run in four steps.
fn watched_steps(events: usize) -> (Vec<u8>, Vec<u8>) {
    let (net, _) = watched_run(events);
    let log = [0, 1, 2, 0].map(|transition| line_of('S', events / 4, transition)).join(" ");
    (net, text(&log))
}

/// The greatest run, with the last of 32 places and of 32 transitions: no record of it is longer.
fn widest_run() -> (Vec<u8>, Vec<u8>) {
    let places = format!("{} P,352 {}", times(27, "P,0"), times(4, "P,0"));
    let unused: Vec<String> = (0..29).map(|t| format!("I,0,{t} O,{t},0")).collect();
    let used = "I,27,29 O,29,28 H,29,29 H,30,29 I,27,30 O,30,29 O,30,30 I,29,31 I,30,31 O,31,31";
    let log = [29, 30, 31, 29].map(|transition| times(32, &format!("S,{transition}"))).join(" ");
    (text(&format!("{places} {} {} {used}", times(32, "T"), unused.join(" "))), text(&log))
}

fn log_limits(cases: &mut Vec<Case>) {
    let mut add = |net: &str, log: &str| {
        cases.push(Case::new(Operation::Build, &[&text(net), &text(log)]));
        cases.push(Case::new(Operation::Program, &[&text(&format!("{net} = {log}"))]));
    };
    for count in [126, 127, 128, 129, 130] {
        add("P,150 P,0 T I,0,0 O,0,1", &times(count, "S,0"));
        add("P,150 P,0 T I,0,0 O,0,1", &line_of('S', count, 0));
        add("P,150 P,0 T I,0,0 O,0,1", &format!("{} S,0,0", line_of('S', count - 2, 0)));
        add("P,1 T I,0,0 O,0,0", &times(count, "S,0"));
    }
    for tokens in [127, 128, 129] {
        add(&format!("P,{tokens} P,0 P,0 P,0 T I,0,0 O,0,1 O,0,2 O,0,3"), &times(128, "S,0"));
        add(&format!("P,{tokens} P,0 P,0 P,0 T I,0,0 O,0,1 O,0,2 O,0,3"), &line_of('S', 128, 0));
    }
    for count in [62, 63, 64, 65, 66] {
        add("P,150 P,0 P,0 T T I,0,0 O,0,1 H,2,0 I,0,1 O,1,2", &format!("{} {}", times(count, "S,0"), times(64, "S,1")));
        add("P,150 P,0 P,0 T T I,0,0 O,0,1 H,2,0 I,0,1 O,1,2", &format!("{} {}", times(64, "S,0"), line_of('S', count, 1)));
        add("P,150 P,0 T I,0,0 O,0,1 H,1,0", &line_of('S', count, 0));
    }
}

/// The greatest record and what is around it, in every operation.
fn record_limits(cases: &mut Vec<Case>) {
    for (net, log) in [watched_run(128), watched_steps(128), widest_run(), watched_run(32), watched_steps(64)] {
        cases.push(Case::new(Operation::Build, &[&net, &log]));
        cases.push(Case::new(Operation::Program, &[&[&net[..], b"=\n", &log].concat()]));
        let record = build(&net, &log).expect("the run is one of the net");
        around(&net, &record, cases);
    }
}

fn around(net: &[u8], record: &[u8], cases: &mut Vec<Case>) {
    let more = |lines: &str| [record, &text(lines)].concat();
    let first = |lines: &str| [&text(lines), record].concat();
    let flipped: Vec<u8> = record.iter().map(|byte| if *byte == b'A' { b'B' } else { *byte }).collect();
    let shorter = record[..record.len() - 1].iter().rposition(|byte| *byte == 10).map_or(0, |end| end + 1);
    let records = [record.to_vec(), more("B,0,0"), more("A,999,0"), more("x"), first("E,0"), first("C,0,-,-"), flipped, record[..shorter].to_vec()];
    for record in records {
        cases.push(Case::new(Operation::Check, &[net, &record]));
        cases.push(Case::new(Operation::Arrange, &[net, &record]));
        cases.push(Case::new(Operation::Replay, &[net, &record, b"G,0\n"]));
    }
    let case = Case::new(Operation::Arrange, &[net, record]);
    let mut outcome = run(&SIMULATOR, &case);
    let shortest = lent(&mut outcome.bytes)[..outcome.answer.a as usize].to_vec();
    let events = record.iter().filter(|byte| **byte == b'E').count();
    let single: String = (0..events).map(|event| format!("G,{event}\n")).collect();
    let again = format!("{single}G,0\n");
    let short: String = (0..events - 1).map(|event| format!("G,{event}\n")).collect();
    for arrangement in [shortest, single.into_bytes(), again.into_bytes(), short.into_bytes()] {
        cases.push(Case::new(Operation::Replay, &[net, record, &arrangement]));
    }
}

/// 32 places in a ring, 32 transitions that move a token on, each inhibited by the place behind it: every row and column of
/// the net is in use. One token goes round four times, which is 128 events.
fn ring(cases: &mut Vec<Case>) {
    let arcs: Vec<String> = (0..32).map(|t| format!("I,{t},{t} O,{t},{} H,{},{t}", (t + 1) % 32, (t + 31) % 32)).collect();
    let net = text(&format!("P,1 {} {} {}", times(31, "P,0"), times(32, "T"), arcs.join(" ")));
    for events in [31, 32, 33, 127, 128, 129] {
        let log = text(&(0..events).map(|event| format!("S,{}", event % 32)).collect::<Vec<String>>().join(" "));
        cases.push(Case::new(Operation::Build, &[&net, &log]));
        cases.push(Case::new(Operation::Program, &[&[&net[..], b"=\n", &log].concat()]));
        if let Some(record) = build(&net, &log) {
            around(&net, &record, cases);
        }
    }
}

/// Every two arcs between a place and a transition, in either order, with what the transition needs besides; and each R mark that
/// the record of one event could have, alone and by twos.
fn reading_arcs(cases: &mut Vec<Case>) {
    let arcs = ["I,0,0", "O,0,0", "H,0,0", "R,0,0", "R,1,0", "I,1,0", "R,0,1", "I,0,1"];
    for one in arcs {
        for other in arcs {
            cases.push(Case::new(Operation::ReadNet, &[&text(&format!("P,1 P,1 P,0 T T I,2,0 O,0,2 I,2,1 O,1,2 {one} {other}"))]));
            cases.push(Case::new(Operation::ReadNet, &[&text(&format!("P,1 P,1 P,0 T {one} {other}"))]));
        }
    }
    let net = text("P,1 P,2 P,1 P,0 T T I,0,0 O,0,3 O,0,1 R,1,0 R,2,0 I,1,1 O,1,3");
    let record = "E,0 E,1 C,0,-,0 C,1,-,1 C,1,-,- C,2,-,- C,1,0,- C,3,0,- C,3,1,-";
    let letters = ['R', 'B', 'A'].into_iter().flat_map(|letter| (0..7).map(move |condition| format!("{letter},{condition},0")));
    let marks: Vec<String> = letters.chain(["R,3,1".to_string(), "R,1,1".to_string()]).collect();
    for one in &marks {
        cases.push(Case::new(Operation::Check, &[&net, &text(&format!("{record} {one}"))]));
        for other in &marks {
            cases.push(Case::new(Operation::Check, &[&net, &text(&format!("{record} {one} {other}"))]));
            cases.push(Case::new(Operation::Arrange, &[&net, &text(&format!("{record} R,3,0 {one} {other}"))]));
        }
    }
}

/// An R line of the transition for each of so many places but its own.
fn reads_of_others(places: usize, transition: usize) -> String {
    let others = (0..places).filter(|place| *place != transition);
    others.map(|place| format!("R,{place},{transition}")).collect::<Vec<String>>().join(" ")
}

/// 32 places and 32 transitions, each of which moves the token of its own place and reads all others: 992 read arcs, and 31 R
/// marks for each event. All at once read what the others take.
fn all_read() -> Vec<u8> {
    let arcs: Vec<String> = (0..32).map(|t| format!("I,{t},{t} O,{t},{t} {}", reads_of_others(32, t))).collect();
    text(&format!("{} {} {}", times(32, "P,1"), times(32, "T"), arcs.join(" ")))
}

/// Like `all_read` with 31 places of that kind, each with so many tokens, and an empty one that inhibits the 31 and that the
/// last transition fills: with the fillers at the end, runs pass the limit of marks.
fn all_read_and_watch(tokens: usize) -> Vec<u8> {
    let arcs: Vec<String> = (0..31).map(|t| format!("I,{t},{t} O,{t},{t} H,31,{t} {}", reads_of_others(31, t))).collect();
    text(&format!("{} P,0 {} {} I,0,31 O,31,31", times(31, &format!("P,{tokens}")), times(32, "T"), arcs.join(" ")))
}

/// So many events of the transitions below a number, in turn, on lines of so many.
fn in_turn(events: usize, transitions: usize, line: usize) -> String {
    let numbers: Vec<String> = (0..events).map(|event| (event % transitions).to_string()).collect();
    numbers.chunks(line).map(|events| format!("S,{}", events.join(","))).collect::<Vec<String>>().join(" ")
}

/// A net and a log with so many events (a multiple of 32), each of which reads 31 tokens.
pub fn reading_run(events: usize) -> (Vec<u8>, Vec<u8>) {
    (all_read(), text(&in_turn(events, 32, 32)))
}

fn reading_limits(cases: &mut Vec<Case>) {
    let mut logs = Vec::new();
    for events in [31, 32, 33, 127, 128, 129] {
        logs.extend([1, 5, 32].map(|line| (all_read(), text(&in_turn(events, 32, line)))));
    }
    for readers in [123, 124, 125] {
        for fillers in 1..5 {
            let log = format!("{} {}", in_turn(readers, 31, 31), line_of('S', fillers, 31));
            logs.push((all_read_and_watch(8), text(&log)));
        }
    }
    for events in [62, 63, 64, 65, 66] {
        let net = |reads: &str| text(&format!("P,150 P,0 P,1 P,2 T T I,0,0 O,0,1 H,1,0 R,2,0 {reads} I,2,1 O,1,2"));
        for reads in ["R,3,1", "R,3,0", "R,3,0 R,3,1"] {
            logs.push((net(reads), text(&line_of('S', events, 0))));
            logs.push((net(reads), text(&format!("{},1 S,1", line_of('S', events, 0)))));
        }
    }
    for (net, log) in logs {
        cases.push(Case::new(Operation::Build, &[&net, &log]));
        cases.push(Case::new(Operation::Program, &[&[&net[..], b"=\n", &log].concat()]));
        if let Some(record) = build(&net, &log) {
            around(&net, &record, cases);
            around_reads(&net, &record, cases);
        }
    }
}

/// The record with another R mark behind it, and with its last R mark on every tenth condition or as another kind.
fn around_reads(net: &[u8], record: &[u8], cases: &mut Vec<Case>) {
    let lines = String::from_utf8_lossy(record).into_owned();
    let mut check = |record: String| cases.push(Case::new(Operation::Check, &[net, record.as_bytes()]));
    check(format!("{lines}R,0,0\n"));
    check(format!("{lines}R,511,127\n"));
    let Some((before, last)) = lines.rfind('R').map(|at| lines.split_at(at)) else {
        return;
    };
    let (mark, after) = last.split_once('\n').expect("a line ends");
    let words: Vec<&str> = mark.split(',').collect();
    ["A", "B"].into_iter().for_each(|letter| check(format!("{before}{letter},{},{}\n{after}", words[1], words[2])));
    (0..512).step_by(10).for_each(|condition| check(format!("{before}R,{condition},{}\n{after}", words[2])));
    check(format!("{before}{mark}\n{mark}\n{after}"));
    check(format!("{before}{after}"));
}

/// Every line number around those of small texts, and every choice.
fn lines_asked(cases: &mut Vec<Case>) {
    let texts: [&[u8]; 7] = [b"", b"\n", b"a", b"a\n", b"\n\n", b"a\nbc\n\nd", b"\r\n=\n"];
    for net in texts {
        for second in texts {
            for line in 0..6 {
                cases.extend((0..=255).step_by(15).chain([1, 2]).map(|choice| Case::new(Operation::RefusedLine, &[net, second]).asking(choice, line)));
            }
        }
    }
}

/// Texts far past every limit: calls must end, and counts of lines, fields and bytes must not wrap round at 16 bits.
fn long_texts(cases: &mut Vec<Case>) {
    let (drive, record) = (text(DRIVE), text(CASE_B));
    let many = |line: &str| format!("{line}\n").repeat(70_000).into_bytes();
    let wide = |letter: &str, number: &str| format!("{letter}{}\n", format!(",{number}").repeat(70_000)).into_bytes();
    let unended = |byte: u8| vec![byte; 200_000];
    for net in [many("P,0"), many("T"), many(""), wide("P", "0"), unended(b'P'), unended(b'0')] {
        cases.push(Case::new(Operation::ReadNet, &[&net]));
        cases.push(Case::new(Operation::Program, &[&net]));
    }
    for log in [many("S,2"), wide("S", "0"), wide("S", "3"), unended(b'S')] {
        cases.push(Case::new(Operation::Build, &[&drive, &log]));
    }
    for record in [many("E,0"), many("C,0,-,-"), [&b"E,0\nC,0,-,0\n"[..], &many("B,0,0")].concat(), unended(b',')] {
        cases.push(Case::new(Operation::Check, &[&drive, &record]));
        cases.push(Case::new(Operation::Arrange, &[&drive, &record]));
    }
    for arrangement in [many("G,1"), wide("G", "1"), wide("G", "2"), unended(b'G')] {
        cases.push(Case::new(Operation::Replay, &[&drive, &record, &arrangement]));
    }
    let lines = [&many("ab")[..], b"cd"].concat();
    for line in [1, 4_464, 4_465, 65_535, 65_536, 65_537, 70_000, 70_001, 70_002, 131_072] {
        cases.push(Case::new(Operation::RefusedLine, &[&lines, b"x"]).asking(0, line));
        cases.push(Case::new(Operation::RefusedLine, &[b"x", &lines]).asking(1, line));
    }
}
