//! Arc weights, request 2026-06: net lines, steps, records, orders and limits.

use super::*;

/// Blocks are written one by one and flushed four together: place 0 free, 1 dirty, 2 flushed; transition 0 write, 1 flush.
const FLUSH: &str = "P,4 P,0 P,0 T T I,0,0 O,0,1 I,1,1,4 O,1,0,4 O,1,2";
/// The record of four writes and a flush, without the lines of what the flush makes, and with them.
const FLUSHED_IN: &str = "E,0 E,0 E,0 E,0 E,1 C,0,-,0 C,0,-,1 C,0,-,2 C,0,-,3 C,1,0,4 C,1,1,4 C,1,2,4 C,1,3,4";
const FLUSHED: &str = "E,0 E,0 E,0 E,0 E,1 C,0,-,0 C,0,-,1 C,0,-,2 C,0,-,3 C,1,0,4 C,1,1,4 C,1,2,4 C,1,3,4 C,0,4,- C,0,4,- C,0,4,- C,0,4,- C,2,4,-";
/// Two transitions that take two and three tokens of one place.
const TWO_OR_THREE: &str = "P,5 P,0 T T I,0,0,2 O,0,1 I,0,1,3 O,1,1";
/// Two are made by an event and three taken by one.
const TWO_FOR_THREE: &str = "P,3 P,0 P,0 T T I,0,0 O,0,1,2 I,1,1,3 O,1,2";
/// Two tokens become three of the same place.
const MORE: &str = "P,2 T I,0,0,2 O,0,0,3";
/// A transition that three of its own outputs would inhibit.
const OWN: &str = "P,2 P,0 T I,0,0 O,0,1,3 H,1,0";
/// Parking waits until no dirty block is left, and three are flushed together.
const PARK: &str = "P,3 P,0 P,1 P,0 T T T I,0,0 O,0,1 I,1,1,3 O,1,0,3 I,2,2 O,2,3 H,1,2";
/// Transition 0 takes two and reads the token that transition 1 takes.
const READING: &str = "P,4 P,0 P,1 P,0 T T I,0,0,2 O,0,1,3 R,2,0 I,2,1 O,1,3,2";
/// Transition 0 makes three of what transition 1 reads and of what transition 2 takes two.
const THREE_READ: &str = "P,1 P,0 P,1 P,0 T T T I,0,0 O,0,1,3 I,2,1 O,1,3 R,1,1 I,1,2,2 O,2,3";

pub fn add(book: &mut Book) {
    net_lines(book);
    out_of_range(book);
    order_of_refusals(book);
    repeated(book);
    arcs(book);
    net_limits(book);
    enabling(book);
    built(book);
    ones(book);
    readers(book);
    own_outputs(book);
    inhibitors(book);
    counts(book);
    other_tokens(book);
    orders(book);
    energies(book);
    conditions_limit(book);
    sixteen_bits(book);
    marks_limit(book);
    printed(book);
}

fn net_lines(book: &mut Book) {
    for wrong in ["", "-", "00", "01", "016", "00017", "10000", "99999", "1,1", "17,1", "0,0", "1,", ",1", "+1", "1-", "-1", "1.", "x", "1~", "0~", "I"] {
        book.no_net("malformed weight of I", &format!("P,1 T I,0,0,{wrong}"), 11, 3);
        book.no_net("malformed weight of O", &format!("P,1 T O,0,0,{wrong}"), 11, 3);
    }
    for wrong in ["H,0,0,1", "H,0,0,0", "H,0,0,17", "H,0,0,", "R,0,0,1", "R,0,0,0", "R,0,0,17", "R,0,0,", "P,1,1", "T,1", "I,0,,2", "I,,0,2", "O,-,0,2", "O,0,-,2", "I,00,0,2", "O,0,00,2"] {
        book.no_net("a weight elsewhere, or an end that is no number", &format!("P,1 T {wrong}"), 11, 3);
    }
    for weight in 1..=16 {
        book.net("a weight of either", &format!("P,1 T I,0,0,{weight} O,0,0,{}", 17 - weight), 1, 1);
        book.net("a weight of I alone", &format!("P,1 T I,0,0,{weight} O,0,0"), 1, 1);
        book.net("a weight of O alone", &format!("P,1 T I,0,0 O,0,0,{weight}"), 1, 1);
    }
    book.net("13 and 10 behind a weight", b"P,1\r\nT\r\nI,0,0,16\r\nO,0,0,2\r\n", 1, 1);
    book.add("13 within a weight", Case::new(Operation::ReadNet, &[b"P,1\nT\nI,0,0,1\r6\nO,0,0\n"]), Answer::refuses(11, 3), Written::Nothing);
}

fn out_of_range(book: &mut Book) {
    for weight in [0, 17, 18, 31, 32, 99, 100, 255, 256, 257, 272, 999, 4_096, 9_999] {
        book.no_net("54: I", &format!("P,1 T I,0,0,{weight}"), 54, 3);
        book.no_net("54: O", &format!("P,1 T O,0,0,{weight}"), 54, 3);
    }
    book.no_net("54: the last line", "P,1 T I,0,0,16 O,0,0,17", 54, 4);
    book.no_net("54: the first of two", "P,1 T I,0,0,0 O,0,0,17", 54, 3);
    book.not_built("54 before the log", "P,1 T I,0,0,0 O,0,0", "x", 54, 3);
    book.no_record("54 before the record", "P,1 T I,0,0 O,0,0,17", "x", 54, 4);
    book.line("the line that 54 names", ["P,1 T I,0,0,17", ""], (0, 3), 6, 8);
}

/// 11, 12, 13, 54, 14, 51 for one line.
fn order_of_refusals(book: &mut Book) {
    for (line, number) in [("I,9,0,00017", 11), ("O,9,9,-", 11), ("I,0,9,", 11), ("I,9,0,0", 13), ("I,1,0,17", 13), ("I,0,1,17", 13), ("O,1,0,0", 13), ("O,0,1,9999", 13), ("I,9,9,16", 13)] {
        book.no_net("11 before 13 before 54", &format!("P,1 T {line}"), number, 3);
    }
    for (line, number) in [("I,0,0,", 11), ("I,0,0,0", 54), ("I,0,0,17", 54), ("I,0,0,16", 14), ("O,0,0,00", 11), ("O,0,0,0", 54), ("O,0,0,9999", 54), ("O,0,0,1", 14)] {
        book.no_net("11 before 54 before 14", &format!("P,1 T I,0,0 O,0,0 {line}"), number, 5);
    }
    for (line, number) in [("I,0,0,-", 11), ("I,0,0,0", 54), ("I,0,0,17", 54), ("I,0,0,1", 51), ("I,0,0,16", 51), ("I,0,0", 51)] {
        book.no_net("11 before 54 before 51", &format!("P,1 T O,0,0 R,0,0 {line}"), number, 5);
    }
    book.no_net("54 before 15", "P,1 T I,0,0,17", 54, 3);
    book.no_net("54 before a later 11", "P,1 T I,0,0,17 x", 54, 3);
    book.no_net("an earlier 11", "P,1 T x I,0,0,17", 11, 3);
    book.no_net("an earlier 12", "P,513 T I,0,0,17", 12, 1);
    book.no_net("an earlier 14", "P,1 T I,0,0,2 I,0,0,3 O,0,0,17", 14, 4);
}

/// 14 whatever the weights.
fn repeated(book: &mut Book) {
    for (one, other) in [("", ",2"), (",2", ""), (",2", ",2"), ("", ",1"), (",1", ""), (",1", ",1"), (",16", ",1"), (",3", ",4")] {
        book.no_net("14: I again", &format!("P,1 T O,0,0 I,0,0{one} I,0,0{other}"), 14, 5);
        book.no_net("14: O again", &format!("P,1 T I,0,0 O,0,0{one} O,0,0{other}"), 14, 5);
    }
    book.net("I and O of the same, either with a weight", "P,1 T I,0,0,3 O,0,0,3", 1, 1);
    book.net("H beside I and O with weights", "P,1 T I,0,0,3 H,0,0 O,0,0,2", 1, 1);
    book.no_net("14: H again, beside weights", "P,1 T I,0,0,3 H,0,0 O,0,0,2 H,0,0", 14, 6);
}

fn arcs(book: &mut Book) {
    book.no_net("51: R after a weighted I", "P,1 T O,0,0 I,0,0,2 R,0,0", 51, 5);
    book.no_net("51: a weighted I after R", "P,1 T O,0,0 R,0,0 I,0,0,16", 51, 5);
    book.no_net("51: R after an I of weight 1", "P,1 T O,0,0,4 I,0,0,1 R,0,0", 51, 5);
    book.net("R and a weighted O between the same", "P,1 P,1 T I,0,0 O,0,1,3 R,1,0", 2, 1);
    book.net("R and a weighted I of different transitions", "P,1 T T I,0,0,2 O,0,0 I,0,1,3 O,1,0 P,1 R,1,0 R,1,1", 2, 2);
    book.no_net("15: no output", "P,1 T I,0,0,16", 15, 0);
    book.no_net("15: no input", "P,1 T O,0,0,16", 15, 0);
    book.no_net("15: the second", "P,1 T T I,0,0,2 O,0,0,2 I,0,1,2", 15, 1);
    book.net("place first in I, transition in O", "P,1 P,0 P,0 T I,2,0,3 O,0,2,3", 3, 1);
    book.no_net("13: I has the place first", "P,1 P,0 P,0 T I,0,2,1", 13, 5);
    book.no_net("13: O has the transition first", "P,1 P,0 P,0 T I,2,0,1 O,2,0,1", 13, 6);
    book.net("a weight names nothing that is declared", "P,1 T I,0,0,9 O,0,0,12", 1, 1);
    book.net("any order of lines", "P,1 T O,0,0,2 P,0 I,1,0,3", 2, 1);
}

/// Every arc between 32 places and 32 transitions, with the greatest weight.
fn net_limits(book: &mut Book) {
    let pairs = (0..32).flat_map(|p| (0..32).map(move |t| format!("I,{p},{t},16 O,{t},{p},16 H,{p},{t}")));
    let net = format!("{} {} {}", times(32, "P,16"), times(32, "T"), pairs.collect::<Vec<String>>().join(" "));
    book.net("every arc, of weight 16", &net, 32, 32);
    book.no_net("every arc and one again", &format!("{net} I,31,31"), 14, 3_137);
    book.no_net("every arc and one again, of weight 17", &format!("{net} O,31,31,17"), 54, 3_137);
}

fn enabling(book: &mut Book) {
    book.not_built("24: three of four", FLUSH, "S,0,0,0 S,1", 24, 2);
    book.not_built("24: four of eight", FLUSH, "S,0,0,0,0 S,1,1", 24, 2);
    book.not_built("24: none left", FLUSH, "S,0,0,0,0 S,1 S,1", 24, 3);
    book.not_built("24: three for two events of two", "P,3 P,0 T I,0,0,2 O,0,1", "S,0,0", 24, 1);
    book.not_built("24: one left of three", "P,3 P,0 T I,0,0,2 O,0,1", "S,0 S,0", 24, 2);
    book.not_built("24: six of five", TWO_OR_THREE, "S,1,1", 24, 1);
    book.not_built("24: seven of five", TWO_OR_THREE, "S,0,0,1", 24, 1);
    book.not_built("24: what the step makes", "P,1 P,0 T T I,0,0 O,0,1,4 I,1,1,4 O,1,0", "S,0,1", 24, 1);
    book.not_built("24: what the event makes", MORE, "S,0,0", 24, 1);
    book.not_built("24: 256 of 255", "P,255 P,0 T I,0,0,16 O,0,1", &line_of('S', 16, 0), 24, 1);
    book.not_built("24: 2,048 of 512", "P,512 P,0 T I,0,0,16 O,0,1", &line_of('S', 128, 0), 24, 1);
    book.not_built("24 before 26", "P,512 P,0 T I,0,0,16 O,0,1", &line_of('S', 33, 0), 24, 1);
    book.not_built("26 where 512 are taken", "P,512 P,0 T I,0,0,16 O,0,1", &line_of('S', 32, 0), 26, 1);
    book.not_built("23 before 24", "P,512 P,0 T I,0,0,16 O,0,1", &line_of('S', 129, 0), 23, 1);
    let inhibited = "P,3 P,0 P,1 T I,0,0,2 O,0,1 H,2,0";
    book.not_built("25 with tokens enough", inhibited, "S,0", 25, 1);
    book.not_built("24 before 25", inhibited, "S,0,0", 24, 1);
}

fn built(book: &mut Book) {
    book.built("four flushed together", FLUSH, "S,0,0 S,0,0 S,1", FLUSHED);
    book.built("three outputs, then two, by place", "P,1 P,0 P,0 T I,0,0 O,0,2,2 O,0,1,3", "S,0", "E,0 C,0,-,0 C,1,0,- C,1,0,- C,1,0,- C,2,0,- C,2,0,-");
    book.built("three and two taken", TWO_OR_THREE, "S,1,0", "E,1 E,0 C,0,-,0 C,0,-,0 C,0,-,0 C,0,-,1 C,0,-,1 C,1,0,- C,1,1,-");
    book.built("two and three taken", TWO_OR_THREE, "S,0,1", "E,0 E,1 C,0,-,0 C,0,-,0 C,0,-,1 C,0,-,1 C,0,-,1 C,1,0,- C,1,1,-");
    book.built("two and two taken, one left", TWO_OR_THREE, "S,0 S,0", "E,0 E,0 C,0,-,0 C,0,-,0 C,0,-,1 C,0,-,1 C,0,-,- C,1,0,- C,1,1,-");
    book.built("taken from several", TWO_FOR_THREE, "S,0 S,0,0 S,1,1", THREES);
    book.built("two become three, twice", MORE, "S,0 S,0", "E,0 E,0 C,0,-,0 C,0,-,0 C,0,0,1 C,0,0,1 C,0,0,- C,0,1,- C,0,1,- C,0,1,-");
    let two_inputs = "P,2 P,3 P,0 T I,1,0,3 I,0,0,2 O,0,2,2";
    book.built("two inputs", two_inputs, "S,0", "E,0 C,0,-,0 C,0,-,0 C,1,-,0 C,1,-,0 C,1,-,0 C,2,0,- C,2,0,-");
    let taken = (0..16).map(|event| times(16, &format!("C,0,-,{event}"))).collect::<Vec<String>>().join(" ");
    let made = (0..16).map(|event| format!("C,1,{event},-")).collect::<Vec<String>>().join(" ");
    book.built("256 of 256", "P,256 P,0 T I,0,0,16 O,0,1", &line_of('S', 16, 0), &format!("{} {taken} {made}", times(16, "E,0")));
    book.built("no events", FLUSH, "", "C,0,-,- C,0,-,- C,0,-,- C,0,-,-");
    filled(book);
}

/// Sixteen events of one step make 256 tokens of a place, which others take, and which inhibit.
fn filled(book: &mut Book) {
    let net = "P,17 P,0 P,0 P,1 T T T I,0,0 O,0,1,16 I,1,1,16 O,1,2 I,3,2 O,2,3 H,1,2";
    let taken = (0..16).map(|event| format!("C,0,-,{event}")).chain(["C,0,-,- C,3,-,-".to_string()]);
    let moved = (0..16).map(|event| times(16, &format!("C,1,{event},{}", 16 + event)));
    let made = (16..32).map(|event| format!("C,2,{event},-"));
    let lines = taken.chain(moved).chain(made).collect::<Vec<String>>().join(" ");
    let log = format!("{} {}", line_of('S', 16, 0), line_of('S', 16, 1));
    book.built("256 made and taken", net, &log, &format!("{} {} {lines}", times(16, "E,0"), times(16, "E,1")));
    book.not_built("24: 272 of 256", net, &format!("{} {}", line_of('S', 16, 0), line_of('S', 17, 1)), 24, 2);
    book.not_built("25: 256 in the place", net, &format!("{} S,2", line_of('S', 16, 0)), 25, 2);
}

/// The record of `S,0 S,0,0 S,1,1` under `TWO_FOR_THREE`.
const THREES: &str = "E,0 E,0 E,0 E,1 E,1 C,0,-,0 C,0,-,1 C,0,-,2 C,1,0,3 C,1,0,3 C,1,1,3 C,1,1,4 C,1,2,4 C,1,2,4 C,2,3,- C,2,4,-";

/// The weight 1 written is as none.
fn ones(book: &mut Book) {
    let drive = "P,1 P,0 P,1 P,0 P,0 T T T I,0,0,1 O,0,1,1 I,1,1,1 O,1,4,1 I,2,2,1 O,2,3,1 H,1,2";
    let some = "P,1 P,0 P,1 P,0 P,0 T T T I,0,0 O,0,1,1 I,1,1,1 O,1,4 I,2,2 O,2,3,1 H,1,2";
    for net in [drive, some] {
        book.built("a with weights of 1", net, "S,0 S,1 S,2", CASE_A);
        book.checked("a checked with weights of 1", net, CASE_A, [3, 5, 0], &[(0, 1, 2), (0, 2, 2), (1, 2, 2)]);
        book.built("b with weights of 1", net, "S,0,2", CASE_B);
        book.not_built("c with weights of 1", net, "S,0 S,2", 25, 2);
        book.not_built("d with weights of 1", net, "S,0,0", 24, 1);
        book.no_record("g with weights of 1", net, CASE_A_UNMARKED, 37, 2);
        book.replayed("j with weights of 1", net, CASE_B, "G,1 G,0", &[&[1, 0, 1, 0, 0], &[1, 0, 0, 1, 0], &[0, 1, 0, 1, 0]]);
        book.arranged("a arranged with weights of 1", net, CASE_A, "G,0 G,1 G,2");
    }
}

/// A reader needs one token, whatever the weights, and reads the lowest.
fn readers(book: &mut Book) {
    let record = "E,0 E,0 E,1 C,0,-,0 C,0,-,0 C,0,-,1 C,0,-,1 C,2,-,2 C,1,0,- C,1,0,- C,1,0,- C,1,1,- C,1,1,- C,1,1,- C,3,2,- C,3,2,- R,4,0 R,4,1";
    book.built("two readers that take two each", READING, "S,0,0,1", record);
    book.checked("two readers that take two each, checked", READING, record, [3, 13, 1], &[(0, 2, 1), (1, 2, 1)]);
    book.not_built("24: the token gone", READING, "S,1 S,0", 24, 2);
    book.no_record("37: R missing", READING, record.trim_end_matches(" R,4,1"), 37, 1);
    let taken = "E,0 E,2 E,1 C,0,-,0 C,2,-,2 C,1,0,1 C,1,0,1 C,1,0,- C,3,1,- C,3,2,- R,4,2";
    book.built("the third, two being gone", THREE_READ, "S,0 S,2 S,1", taken);
    book.checked("the third, checked", THREE_READ, taken, [3, 7, 1], &[(0, 1, 2), (0, 2, 2)]);
    let step = "E,0 E,1 E,2 C,0,-,0 C,2,-,1 C,1,0,2 C,1,0,2 C,1,0,- C,3,1,- C,3,2,- R,2,1";
    book.built("the first, taken in the step", THREE_READ, "S,0 S,1,2", step);
    book.checked("the first, checked", THREE_READ, step, [3, 7, 0], &[(0, 1, 2), (0, 2, 2), (1, 2, 1)]);
    book.no_record("37: two of three read", THREE_READ, &format!("{step} R,3,1"), 37, 1);
    book.not_built("24: one left of three, and two are taken", THREE_READ, "S,0 S,2 S,2", 24, 3);
}

/// No mark on any of an event's own outputs.
fn own_outputs(book: &mut Book) {
    let alone = "E,0 C,0,-,0 C,0,-,- C,1,0,- C,1,0,- C,1,0,-";
    book.built("own outputs unmarked", OWN, "S,0", alone);
    for condition in [2, 3, 4] {
        book.no_record("37: own output marked", OWN, &format!("{alone} B,{condition},0"), 37, 0);
    }
    let both = "E,0 E,0 C,0,-,0 C,0,-,1 C,1,0,- C,1,0,- C,1,0,- C,1,1,- C,1,1,- C,1,1,- B,5,0 B,6,0 B,7,0 B,2,1 B,3,1";
    book.built("the other's outputs marked", OWN, "S,0,0", &format!("{both} B,4,1"));
    book.checked("weak both ways", OWN, &format!("{both} B,4,1"), [2, 8, 0], &[(0, 1, 1), (1, 0, 1)]);
    book.arranged("on one line", OWN, &format!("{both} B,4,1"), "G,0,1");
    book.not_replayed("parted", OWN, &format!("{both} B,4,1"), "G,0 G,1", 44, 1);
    book.no_record("37: one of three marks missing", OWN, both, 37, 1);
    book.no_record("37: own output marked in its place", OWN, &format!("{both} B,5,1"), 37, 1);
    book.not_built("25: filled before", OWN, "S,0 S,0", 25, 2);
    let two_places = "P,2 P,0 P,0 T I,0,0 O,0,1,2 O,0,2,3 H,1,0 H,2,0";
    let made = "C,1,0,- C,1,0,- C,2,0,- C,2,0,- C,2,0,- C,1,1,- C,1,1,- C,2,1,- C,2,1,- C,2,1,-";
    let marks = "B,7,0 B,8,0 B,9,0 B,10,0 B,11,0 B,2,1 B,3,1 B,4,1 B,5,1 B,6,1";
    book.built("own outputs at two places", two_places, "S,0,0", &format!("E,0 E,0 C,0,-,0 C,0,-,1 {made} {marks}"));
}

fn inhibitors(book: &mut Book) {
    let record = "E,0 E,0 E,0 E,1 E,2 C,0,-,0 C,0,-,1 C,0,-,2 C,2,-,4 C,1,0,3 C,1,1,3 C,1,2,3 C,0,3,- C,0,3,- C,0,3,- C,3,4,- A,4,4 A,5,4";
    book.built("park after three were flushed", PARK, "S,0,0,0 S,1 S,2", &format!("{record} A,6,4"));
    let table = [(0, 3, 2), (1, 3, 2), (2, 3, 2), (3, 4, 2), (0, 4, 2), (1, 4, 2), (2, 4, 2)];
    book.checked("park checked", PARK, &format!("{record} A,6,4"), [5, 11, 3], &table);
    book.arranged("park arranged", PARK, &format!("{record} A,6,4"), "G,0,1,2 G,3 G,4");
    book.no_record("37: one of three marks missing", PARK, record, 37, 4);
    book.not_built("25: three dirty", PARK, "S,0,0,0 S,2", 25, 2);
    book.not_built("24: two dirty", PARK, "S,0,0 S,1", 24, 2);
    book.built("park beside a write", PARK, "S,0,2", "E,0 E,2 C,0,-,0 C,0,-,- C,0,-,- C,2,-,1 C,1,0,- C,3,1,- B,4,1");
    book.not_built("25: one written after the flush", PARK, "S,0,0,0 S,1 S,0 S,2", 25, 4);
}

/// 36 by weight, for each place of an event.
fn counts(book: &mut Book) {
    let free = times(4, "C,0,4,-");
    let unflushed = FLUSHED_IN.replace("C,1,3,4", "C,1,3,-");
    book.no_record("36: three flushed", FLUSH, &format!("{unflushed} {free} C,2,4,-"), 36, 4);
    book.no_record("36: three made free", FLUSH, &format!("{FLUSHED_IN} {} C,2,4,-", times(3, "C,0,4,-")), 36, 4);
    book.no_record("36: five made free", FLUSH, &format!("{FLUSHED_IN} {} C,2,4,-", times(5, "C,0,4,-")), 36, 4);
    book.no_record("36: one made free", FLUSH, &format!("{FLUSHED_IN} C,0,4,- C,2,4,-"), 36, 4);
    book.no_record("36: two batches", FLUSH, &format!("{FLUSHED_IN} {free} C,2,4,- C,2,4,-"), 36, 4);
    book.no_record("36: two dirty of one write", FLUSH, &format!("{FLUSHED} C,1,3,-"), 36, 3);
    book.no_record("36: none taken, none made", FLUSH, "E,1 C,0,-,- C,0,-,- C,0,-,- C,0,-,-", 36, 0);
    let five = "E,0 E,0 E,0 E,0 E,0 E,1 C,0,-,0 C,0,-,1 C,0,-,2 C,0,-,3 C,0,-,4 C,1,0,5 C,1,1,5 C,1,2,5 C,1,3,5 C,1,4,5";
    book.no_record("36: five flushed", "P,5 P,0 P,0 T T I,0,0 O,0,1 I,1,1,4 O,1,0,4 O,1,2", &format!("{five} {} C,2,5,-", times(4, "C,0,5,-")), 36, 5);
    let two_and_one = "P,2 P,2 P,0 T I,0,0,2 I,1,0 O,0,2";
    book.checked("two of one place, one of another", two_and_one, "E,0 C,0,-,0 C,0,-,0 C,1,-,0 C,1,-,- C,2,0,-", [1, 5, 0], &[]);
    book.no_record("36: one of one place, two of another", two_and_one, "E,0 C,0,-,0 C,0,-,- C,1,-,0 C,1,-,0 C,2,0,-", 36, 0);
    book.no_record("36: the lowest event", MORE, "E,0 E,0 C,0,-,0 C,0,-,- C,0,0,1 C,0,0,- C,0,0,- C,0,1,-", 36, 0);
    book.no_record("36 at the second", MORE, "E,0 E,0 C,0,-,0 C,0,-,0 C,0,0,1 C,0,0,1 C,0,0,- C,0,1,- C,0,1,-", 36, 1);
    book.no_record("35 before 36", MORE, "E,0 C,0,-,0 C,0,0,- C,0,0,- C,0,0,-", 35, 0);
    book.no_record("36 before 37", OWN, "E,0 C,0,-,0 C,0,-,- C,1,0,- C,1,0,- B,2,0", 36, 0);
    book.no_record("39: own product taken", MORE, "E,0 C,0,-,0 C,0,-,- C,0,0,0 C,0,0,- C,0,0,-", 39, 0);
}

/// Records that building does not write: conditions in another order, other tokens taken.
fn other_tokens(book: &mut Book) {
    book.checked("the highest taken", "P,3 P,0 T I,0,0,2 O,0,1", "E,0 C,0,-,- C,0,-,0 C,0,-,0 C,1,0,-", [1, 4, 0], &[]);
    book.checked("outputs of a place apart", "P,1 P,0 P,0 T I,0,0 O,0,1,2 O,0,2", "E,0 C,1,0,- C,2,0,- C,1,0,- C,0,-,0", [1, 4, 0], &[]);
    let one_of_each = "E,0 E,0 E,0 E,1 E,1 C,0,-,0 C,0,-,1 C,0,-,2 C,1,0,3 C,1,0,4 C,1,1,3 C,1,1,4 C,1,2,3 C,1,2,4 C,2,3,- C,2,4,-";
    let table = [(0, 3, 2), (1, 3, 2), (2, 3, 2), (0, 4, 2), (1, 4, 2), (2, 4, 2)];
    book.checked("one of each", TWO_FOR_THREE, one_of_each, [5, 11, 4], &table);
    book.not_replayed("one of each, one missing", TWO_FOR_THREE, one_of_each, "G,0,1 G,3 G,2 G,4", 44, 2);
}

fn orders(book: &mut Book) {
    book.checked("writes before their flush", FLUSH, FLUSHED, [5, 13, 6], &[(0, 4, 2), (1, 4, 2), (2, 4, 2), (3, 4, 2)]);
    book.arranged("flush arranged", FLUSH, FLUSHED, "G,0,1,2,3 G,4");
    let rows: [&[u16]; 5] = [&[4, 0, 0], &[3, 1, 0], &[1, 3, 0], &[0, 4, 0], &[4, 0, 1]];
    book.replayed("flush replayed", FLUSH, FLUSHED, "G,3 G,1,0 G,2 G,4", &rows);
    book.not_replayed("flush before the last write", FLUSH, FLUSHED, "G,0,1,2 G,4 G,3", 44, 2);
    book.not_replayed("flush beside the last write", FLUSH, FLUSHED, "G,0,1,2 G,3,4", 44, 2);
    book.checked("taken from several, checked", TWO_FOR_THREE, THREES, [5, 11, 6], &[(0, 3, 2), (1, 3, 2), (1, 4, 2), (2, 4, 2)]);
    book.replayed("the second three first", TWO_FOR_THREE, THREES, "G,1,2 G,4 G,0 G,3", &[&[3, 0, 0], &[1, 4, 0], &[1, 1, 1], &[0, 3, 1], &[0, 0, 2]]);
    let more = "E,0 E,0 C,0,-,0 C,0,-,0 C,0,0,1 C,0,0,1 C,0,0,- C,0,1,- C,0,1,- C,0,1,-";
    book.checked("two become three, checked", MORE, more, [2, 8, 0], &[(0, 1, 2)]);
    book.replayed("two become three, replayed", MORE, more, "G,0 G,1", &[&[2], &[3], &[4]]);
}

/// An event draws once, whatever it takes and makes.
fn energies(book: &mut Book) {
    book.energies("four writes and a flush", FLUSH, FLUSHED, "K,1,2000,0 J,1 J,10", [2.0, 14.0, -12.0]);
    book.no_energies("52 under weights", FLUSH, FLUSHED, "K,1,2000,0 J,1,4 J,10", 52, 2);
    book.no_energies("36 before 52", FLUSH, FLUSHED.trim_end_matches(" C,2,4,-"), "x", 36, 4);
}

fn conditions_limit(book: &mut Book) {
    let sixteen = |tokens: usize| format!("P,{tokens} P,0 T I,0,0 O,0,1,16");
    book.built("26: 512 conditions", &sixteen(496), "S,0", &format!("E,0 C,0,-,0 {} {}", times(495, "C,0,-,-"), times(16, "C,1,0,-")));
    book.not_built("26: 513", &sixteen(497), "S,0", 26, 1);
    let record = |events: usize, weight: usize| {
        let taken = (0..events).map(|event| format!("C,0,-,{event}"));
        let made = (0..events).map(|event| times(weight, &format!("C,1,{event},-")));
        format!("{} {}", times(events, "E,0"), taken.chain(made).collect::<Vec<String>>().join(" "))
    };
    book.built("26: 512 by 128 events", "P,128 P,0 T I,0,0 O,0,1,3", &line_of('S', 128, 0), &record(128, 3));
    book.not_built("26: 513 by 128 events", "P,129 P,0 T I,0,0 O,0,1,3", &line_of('S', 128, 0), 26, 1);
    book.not_built("26: 640 by 128 events", "P,128 P,0 T I,0,0 O,0,1,4", &line_of('S', 128, 0), 26, 1);
    let thirty = record(30, 16).replacen("C,1,0,-", "C,0,-,- C,0,-,- C,1,0,-", 1);
    book.built("26: 512 line by line", &sixteen(32), &times(30, "S,0"), &thirty);
    book.not_built("26: 528 at line 31", &sixteen(32), &times(31, "S,0"), 26, 31);
    book.not_built("26: 256 in a place, and 257 more", "P,257 P,0 T I,0,0 O,0,1,16", &line_of('S', 16, 0), 26, 1);
}

/// A step may make 128 times 16 in each of 32 places, which is 65,536 and 0 in 16 bits.
fn sixteen_bits(book: &mut Book) {
    let filled = |tokens: usize, last: usize| {
        let arcs: Vec<String> = (0..32).map(|p| format!("O,0,{p},{}", if p == 31 { last } else { 16 })).collect();
        format!("P,{tokens} {} T I,0,0 {}", times(31, "P,0"), arcs.join(" "))
    };
    for tokens in [128, 129, 384, 511, 512] {
        book.not_built("26: 65,536 made", &filled(tokens, 16), &line_of('S', 128, 0), 26, 1);
    }
    book.not_built("26: 65,408 made", &filled(512, 15), &line_of('S', 128, 0), 26, 1);
    book.not_built("24 before 26: 65,536 made", &filled(127, 16), &line_of('S', 128, 0), 24, 1);
    book.not_built("26: 65,536 made, and watched", &format!("{} H,31,0", filled(128, 16)), &line_of('S', 128, 0), 26, 1);
}

/// Sixteen events that make 16 each where all of them are inhibited, and one more that makes so many there.
fn marks_limit(book: &mut Book) {
    let net = |fillers: usize, weight: usize| format!("P,{} P,0 T T I,0,0 O,0,1,16 H,1,0 I,0,1 O,1,1,{weight}", 16 + fillers);
    let step = line_of('S', 16, 0);
    let made = (0..17).map(|event| times(16, &format!("C,1,{event},-")));
    let taken = (0..17).map(|event| format!("C,0,-,{event}"));
    let others = |event: usize| (0..17).filter(move |other| *other != event).flat_map(|other| (0..16).map(move |k| 17 + 16 * other + k));
    let marks = (0..16).flat_map(|event| others(event).map(move |condition| format!("B,{condition},{event}")));
    let lines: Vec<String> = taken.chain(made).chain(marks).collect();
    book.built("27: 4,096 marks", &net(1, 16), &format!("{step},1"), &format!("{} E,1 {}", times(16, "E,0"), lines.join(" ")));
    book.not_built("27: 4,112 marks", &net(17, 1), &format!("{step}{}", ",1".repeat(17)), 27, 1);
    book.not_built("27: 4,352 marks", &net(2, 16), &format!("{step},1,1"), 27, 1);
    book.not_built("27: 4,352 marks of seventeen events", &net(1, 16), &line_of('S', 17, 0), 27, 1);
    book.not_built("27 at the second line", &net(2, 16), &format!("{step},1 S,1"), 27, 2);
    book.not_built("26 before 27", "P,480 P,0 T I,0,0 O,0,1,16 H,1,0", &line_of('S', 17, 0), 26, 1);
}

fn printed(book: &mut Book) {
    book.printed("four flushed together", &format!("{FLUSH} = S,0,0 S,0,0 S,1"), &format!("{FLUSHED} Z,5,13,6,2"));
    book.printed("three dirty", &format!("{FLUSH} = S,0,0,0 S,1"), "X,24,2");
    book.printed("a weight of 17", "P,4 P,0 P,0 T T I,0,0 O,0,1 I,1,1,17 O,1,0,4 O,1,2 = S,0", "X,54,8");
    book.printed("a weight of 0", "P,1 T I,0,0 O,0,0,0 = S,0", "X,54,4");
    book.printed("two become three", &format!("{MORE} = S,0 S,0"), "E,0 E,0 C,0,-,0 C,0,-,0 C,0,0,1 C,0,0,1 C,0,0,- C,0,1,- C,0,1,- C,0,1,- Z,2,8,0,2");
}
