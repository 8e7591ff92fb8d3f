//! Independent pairs, request 2026-04: two events count when neither is strictly before, or not later than, the other.

use super::*;

/// Two transitions with nothing in common, and the record of one event of each.
const APART: &str = "P,1 P,0 P,1 P,0 T T I,0,0 O,0,1 I,2,1 O,1,3";
const APART_RECORD: &str = "E,0 E,1 C,0,-,0 C,2,-,1 C,1,0,- C,3,1,-";
/// Transition t fills place t + 1 from the store at place 0. Each is inhibited by what the next one fills, the last by nothing.
const ROW: &str = "P,3 P,0 P,0 P,0 T T T I,0,0 O,0,1 H,2,0 I,0,1 O,1,2 H,3,1 I,0,2 O,2,3";
const ROW_RECORD: &str = "E,0 E,1 E,2 C,0,-,0 C,0,-,1 C,0,-,2 C,1,0,- C,2,1,- C,3,2,- B,4,0 B,5,1";
/// The same way four transitions, 0 and 1 inhibited by what the other one fills, and 2 and 3.
const TWO_LOOPS: &str = "P,4 P,0 P,0 P,0 P,0 T T T T I,0,0 O,0,1 H,2,0 I,0,1 O,1,2 H,1,1 I,0,2 O,2,3 H,4,2 I,0,3 O,3,4 H,3,3";
const TWO_LOOPS_RECORD: &str = "E,0 E,1 E,2 E,3 C,0,-,0 C,0,-,1 C,0,-,2 C,0,-,3 C,1,0,- C,2,1,- C,3,2,- C,4,3,- B,5,0 B,4,1 B,7,2 B,6,3";

pub fn add(book: &mut Book) {
    two_events(book);
    three_events(book);
    two_loops(book);
    loop_before_loop(book);
    rows_of_one_size(book);
    loop_and_free(book);
    many_events(book);
    many_loops(book);
}

/// What is asked of a pair that counts: arrangements with one first, with the other first, and with both in one step.
fn two_events(book: &mut Book) {
    book.checked("apart", APART, APART_RECORD, [2, 4, 1], &[]);
    let (start, end): (&[u16], &[u16]) = (&[1, 0, 1, 0], &[0, 1, 0, 1]);
    book.replayed("apart: one first", APART, APART_RECORD, "G,0 G,1", &[start, &[0, 1, 1, 0], end]);
    book.replayed("apart: the other first", APART, APART_RECORD, "G,1 G,0", &[start, &[1, 0, 0, 1], end]);
    book.replayed("apart: in one step", APART, APART_RECORD, "G,0,1", &[start, end]);
    let park_first = "E,2 E,0 C,0,-,1 C,2,-,0 C,3,0,- C,1,1,- B,3,0";
    book.checked("weak from the lower to the higher", DRIVE, park_first, [2, 4, 0], &[(0, 1, 1)]);
    book.not_replayed("weak: the wrong one first", DRIVE, park_first, "G,1 G,0", 44, 1);
    let each_other = "E,1 E,0 C,0,-,1 C,1,-,0 C,3,0,- C,2,1,- B,3,0 B,2,1";
    book.checked("weak both ways, renumbered", MUTUAL, each_other, [2, 4, 0], &[(0, 1, 1), (1, 0, 1)]);
    let reading = "P,1 P,0 P,1 P,0 T T I,0,0 O,0,1 R,2,0 I,2,1 O,1,3";
    let taker_first = "E,1 E,0 C,0,-,1 C,2,-,0 C,3,0,- C,1,1,- R,1,1";
    book.checked("reader and taker, which is the lower", reading, taker_first, [2, 4, 0], &[(1, 0, 1)]);
    let both_paths = "P,1 P,0 P,0 T T I,0,0 O,0,1 H,2,0 I,1,1 O,1,2";
    book.checked("a strict and a weak pair of the same two", both_paths, "E,0 E,1 C,0,-,0 C,1,0,1 C,2,1,- B,2,0", [2, 3, 0], &[(0, 1, 2)]);
    book.checked("one event", LOOP, "E,0 C,0,-,0 C,0,0,-", [1, 2, 0], &[]);
    book.checked("no events", APART, "C,0,-,- C,2,-,-", [0, 2, 0], &[]);
    book.printed("no events printed", &format!("{APART} ="), "C,0,-,- C,2,-,- Z,0,2,0,0");
    book.printed("apart printed", &format!("{APART} = S,1 S,0"), "E,1 E,0 C,0,-,1 C,2,-,0 C,3,0,- C,1,1,- Z,2,4,1,1");
}

fn three_events(book: &mut Book) {
    book.built("weak through a third, built", ROW, "S,0,1,2", ROW_RECORD);
    book.checked("weak through a third", ROW, ROW_RECORD, [3, 6, 0], &[(0, 1, 1), (0, 2, 1), (1, 2, 1)]);
    let third_first = "E,1 E,0 E,2 C,0,-,0 C,0,-,1 C,0,-,2 C,2,0,- C,1,1,- C,3,2,- B,5,0 B,3,1";
    book.checked("weak through a third, which is the lowest", ROW, third_first, [3, 6, 0], &[(0, 2, 1), (1, 0, 1), (1, 2, 1)]);
    // Event 0 makes what event 1 takes; event 1 is not later than event 2.
    let strict_first = "P,2 P,0 P,0 P,0 T T T I,0,0 O,0,1 I,1,1 O,1,2 H,3,1 I,0,2 O,2,3";
    let record = "E,0 E,1 E,2 C,0,-,0 C,0,-,2 C,1,0,1 C,2,1,- C,3,2,- B,4,1";
    book.checked("a strict path and a weak one", strict_first, record, [3, 5, 0], &[(0, 1, 2), (0, 2, 2), (1, 2, 1)]);
    // Transitions 0 and 1 watch what transition 2 fills; below, transition 0 watches what 1 and 2 fill.
    let fork = "P,3 P,0 P,0 P,0 T T T I,0,0 O,0,1 H,3,0 I,0,1 O,1,2 H,3,1 I,0,2 O,2,3";
    let record = "E,0 E,1 E,2 C,0,-,0 C,0,-,1 C,0,-,2 C,1,0,- C,2,1,- C,3,2,- B,5,0 B,5,1";
    book.checked("two not later than a third are free", fork, record, [3, 6, 1], &[(0, 2, 1), (1, 2, 1)]);
    let meet = "P,3 P,0 P,0 P,0 T T T I,0,0 O,0,1 H,2,0 H,3,0 I,0,1 O,1,2 I,0,2 O,2,3";
    let record = "E,0 E,1 E,2 C,0,-,0 C,0,-,1 C,0,-,2 C,1,0,- C,2,1,- C,3,2,- B,4,0 B,5,0";
    book.checked("two that a third is not later than are free", meet, record, [3, 6, 1], &[(0, 1, 1), (0, 2, 1)]);
}

/// The four pairs across count, the two within do not. The rows of both loops have one size.
fn two_loops(book: &mut Book) {
    let table = [(0, 1, 1), (1, 0, 1), (2, 3, 1), (3, 2, 1)];
    book.checked("two loops", TWO_LOOPS, TWO_LOOPS_RECORD, [4, 8, 4], &table);
    book.printed("two loops printed", &format!("{TWO_LOOPS} = S,0,1,2,3"), &format!("{TWO_LOOPS_RECORD} Z,4,8,4,1"));
    let across = "E,0 E,2 E,1 E,3 C,0,-,0 C,0,-,1 C,0,-,2 C,0,-,3 C,1,0,- C,3,1,- C,2,2,- C,4,3,- B,6,0 B,7,1 B,4,2 B,5,3";
    book.checked("two loops by turns", TWO_LOOPS, across, [4, 8, 4], &[(0, 2, 1), (2, 0, 1), (1, 3, 1), (3, 1, 1)]);
    let (start, end): (&[u16], &[u16]) = (&[4, 0, 0, 0, 0], &[0, 1, 1, 1, 1]);
    book.replayed("two loops: one first", TWO_LOOPS, TWO_LOOPS_RECORD, "G,0,1 G,2,3", &[start, &[2, 1, 1, 0, 0], end]);
    book.replayed("two loops: the other first", TWO_LOOPS, TWO_LOOPS_RECORD, "G,2,3 G,0,1", &[start, &[2, 0, 0, 1, 1], end]);
    book.not_replayed("two loops: both parted", TWO_LOOPS, TWO_LOOPS_RECORD, "G,0,2 G,1,3", 44, 1);
    // Transition 0 watches what transition 2 fills, too: the first loop is not later than the second.
    let chained = format!("{TWO_LOOPS} H,3,0");
    let table = [(0, 1, 1), (1, 0, 1), (2, 3, 1), (3, 2, 1), (0, 2, 1), (0, 3, 1), (1, 2, 1), (1, 3, 1)];
    book.checked("two loops in a chain", &chained, &format!("{TWO_LOOPS_RECORD} B,6,0"), [4, 8, 0], &table);
}

/// Events 0 to 2 are one loop, 3 and 4 another.
fn loop_table(between: u8) -> Vec<(usize, usize, u8)> {
    let within = |events: std::ops::Range<usize>| events.clone().flat_map(move |e| events.clone().filter(move |f| *f != e).map(move |f| (e, f, 1)));
    let across = (0..3).flat_map(|e| (3..5).map(move |f| (e, f, between)));
    within(0..3).chain(within(3..5)).chain(across).collect()
}

/// A loop of three, and one of two: apart, with the first not later than the second, and with the first strictly before it.
fn loop_before_loop(book: &mut Book) {
    let loops = "I,0,0 O,0,1 H,2,0 I,0,1 O,1,2 H,3,1 I,0,2 O,2,3 H,1,2 O,3,4 H,5,3 I,0,4 O,4,5 H,4,4";
    let apart = format!("P,5 {} {} I,0,3 {loops}", times(5, "P,0"), times(5, "T"));
    let events = "E,0 E,1 E,2 E,3 E,4";
    let record = format!("{events} C,0,-,0 C,0,-,1 C,0,-,2 C,0,-,3 C,0,-,4 C,1,0,- C,2,1,- C,3,2,- C,4,3,- C,5,4,- B,6,0 B,7,1 B,5,2 B,9,3 B,8,4");
    book.checked("loops of three and two apart", &apart, &record, [5, 10, 6], &loop_table(0));
    book.checked("loop of three not later than one of two", &format!("{apart} H,4,0"), &format!("{record} B,8,0"), [5, 10, 0], &loop_table(1));
    let made = format!("P,4 {} {} O,0,6 I,6,3 {loops}", times(6, "P,0"), times(5, "T"));
    let record = format!("{events} C,0,-,0 C,0,-,1 C,0,-,2 C,0,-,4 C,1,0,- C,6,0,3 C,2,1,- C,3,2,- C,4,3,- C,5,4,- B,6,0 B,7,1 B,4,2 B,9,3 B,8,4");
    book.built("loop of three before one of two, built", &made, "S,0,1,2 S,3,4", &record);
    book.checked("loop of three before one of two", &made, &record, [5, 10, 0], &loop_table(2));
    book.arranged("loop of three before one of two, arranged", &made, &record, "G,0,1,2 G,3,4");
}

/// A loop of three, and one of two that is not later than event 5: each of the five has two followers.
fn rows_of_one_size(book: &mut Book) {
    let arcs: Vec<String> = (0..6).map(|t| format!("I,0,{t} O,{t},{}", t + 1)).collect();
    let net = format!("P,6 {} {} {} H,2,0 H,3,1 H,1,2 H,5,3 H,4,4 H,6,3", times(6, "P,0"), times(6, "T"), arcs.join(" "));
    let record = format!("{} B,7,0 B,8,1 B,6,2 B,10,3 B,11,3 B,9,4", record_of(6, |event| event));
    let table: Vec<(usize, usize, u8)> = loop_table(0).into_iter().filter(|entry| entry.2 > 0).chain([(3, 5, 1), (4, 5, 1)]).collect();
    book.checked("loops of two sizes with as many followers", &net, &record, [6, 12, 9], &table);
}

fn loop_and_free(book: &mut Book) {
    let net = "P,3 P,0 P,0 P,0 T T T I,0,0 O,0,1 H,2,0 I,0,1 O,1,2 H,1,1 I,0,2 O,2,3";
    let record = "E,0 E,1 E,2 C,0,-,0 C,0,-,1 C,0,-,2 C,1,0,- C,2,1,- C,3,2,- B,4,0 B,3,1";
    book.checked("a loop and a free event", net, record, [3, 6, 2], &[(0, 1, 1), (1, 0, 1)]);
    let between = "E,0 E,2 E,1 C,0,-,0 C,0,-,1 C,0,-,2 C,1,0,- C,3,1,- C,2,2,- B,5,0 B,3,2";
    book.checked("a free event between", net, between, [3, 6, 2], &[(0, 2, 1), (2, 0, 1)]);
}

/// The record but its marks of so many events in one step, each of which takes from the store at place 0 and fills the place behind
/// its transition's number.
fn record_of(events: usize, transition: impl Fn(usize) -> usize) -> String {
    let lines = |line: &dyn Fn(usize) -> String| (0..events).map(line).collect::<Vec<String>>().join(" ");
    let named = lines(&|event| format!("E,{}", transition(event)));
    let taken = lines(&|event| format!("C,0,-,{event}"));
    let made = lines(&|event| format!("C,{},{event},-", transition(event) + 1));
    format!("{named} {taken} {made}")
}

fn many_events(book: &mut Book) {
    let store = "P,128 P,0 T I,0,0 O,0,1";
    book.checked("128 free events", store, &record_of(128, |_| 0), [128, 256, 8_128], &[]);
    book.printed("128 free events printed", &format!("{store} = {}", line_of('S', 128, 0)), &format!("{} Z,128,256,8128,1", record_of(128, |_| 0)));
}

/// Two crossed transitions with 32 events each are one loop of 64, and two of them fill the marks: 64 times 64 pairs across.
fn many_loops(book: &mut Book) {
    let net = TWO_LOOPS.replacen("P,4", "P,128", 1);
    let other = |event: usize| event / 64 * 64 + (event + 32) % 64 / 32 * 32;
    let marks: Vec<String> = (0..128).flat_map(|event| (0..32).map(move |k| format!("B,{},{event}", 128 + other(event) + k))).collect();
    let record = format!("{} {}", record_of(128, |event| event / 32), marks.join(" "));
    let same = (0..128).flat_map(|e| (0..128).filter(move |f| *f != e && e / 64 == f / 64).map(move |f| (e, f, 1)));
    book.checked("two loops of 64", &net, &record, [128, 256, 64 * 64], &same.collect::<Vec<_>>());
}
