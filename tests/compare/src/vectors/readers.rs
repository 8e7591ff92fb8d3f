//! Read arcs, request 2026-01: net lines, steps, records, orders and limits.

use super::*;

/// Transition 0 reads the one token of place 2, which transition 1 takes.
const READ: &str = "P,1 P,0 P,1 P,0 T T I,0,0 O,0,1 R,2,0 I,2,1 O,1,3";
/// The same with two tokens to read, and with two readers.
const TWO_TOKENS: &str = "P,1 P,0 P,2 P,0 T T I,0,0 O,0,1 R,2,0 I,2,1 O,1,3";
const TWO_READERS: &str = "P,2 P,0 P,1 P,0 T T I,0,0 O,0,1 R,2,0 I,2,1 O,1,3";
/// Transition 0 makes what transition 1 reads and transition 2 takes.
const MADE: &str = "P,1 P,0 P,0 P,1 P,0 T T T I,0,0 O,0,1 I,3,1 O,1,4 R,1,1 I,1,2 O,2,2";
/// Each of two transitions reads what the other takes.
const EACH_OTHER: &str = "P,1 P,1 P,0 T T I,0,0 O,0,2 R,1,0 I,1,1 O,1,2 R,0,1";
/// A transition that reads a place which it also fills.
const OWN: &str = "P,1 P,1 T I,0,0 O,0,1 R,1,0";
/// A transition that reads a place which also inhibits it.
const BOTH: &str = "P,1 P,0 P,1 P,0 T T I,0,0 O,0,1 R,2,0 H,2,0 I,2,1 O,1,3";
/// Transition 0 reads place 3, transition 1 is inhibited by what transition 0 makes.
const READ_AND_WATCH: &str = "P,1 P,1 P,0 P,1 T T I,0,0 O,0,2 R,3,0 I,1,1 O,1,2 H,2,1";

pub fn add(book: &mut Book) {
    net_lines(book);
    net_arcs(book);
    net_limits(book);
    enabling(book);
    built(book);
    mark_order(book);
    record_lines(book);
    marks(book);
    inhibited_too(book);
    orders(book);
    other_conditions(book);
    marks_limit(book);
    record_limit(book);
    printed(book);
}

fn net_lines(book: &mut Book) {
    for wrong in ["R", "R,", "R,0", "R,0,", "R,0,0,0", "R,-,0", "R,0,-", "R,00,0", "R,0,01", "R,10000,0", "r,0,0", "R,0,0~", "R0,0"] {
        book.no_net("malformed R", &format!("P,1 T {wrong}"), 11, 3);
    }
    book.no_net("13: place", "P,1 T R,1,0", 13, 3);
    book.no_net("13: transition", "P,1 T R,0,1", 13, 3);
    book.no_net("13: R has the place first", "P,1 P,0 P,0 T R,0,2", 13, 5);
    book.net("R has the place first", "P,1 P,0 P,0 T I,0,0 O,0,0 R,2,0", 3, 1);
    book.no_net("13: declared below", "P,1 P,1 R,1,0 T I,0,0 O,0,0", 13, 3);
    book.no_net("13: four digits", "P,1 T R,9999,0", 13, 3);
    book.net("any order of lines", "P,1 T P,1 R,1,0 O,0,0 I,0,0", 2, 1);
}

fn net_arcs(book: &mut Book) {
    book.no_net("51: R after I", "P,1 T O,0,0 I,0,0 R,0,0", 51, 5);
    book.no_net("51: I after R", "P,1 T O,0,0 R,0,0 I,0,0", 51, 5);
    book.no_net("51: between other lines", "P,1 P,1 T T I,1,0 O,0,0 R,0,0 H,1,1 I,1,1 R,1,0 x", 51, 10);
    book.no_net("51 before 15", "P,1 T I,0,0 R,0,0", 51, 4);
    book.no_net("51 of a later line after 14", "P,1 P,1 T I,0,0 R,1,0 R,1,0 R,0,0", 14, 6);
    book.no_net("14: R again", "P,1 P,1 T I,0,0 O,0,0 R,1,0 R,1,0", 14, 7);
    book.no_net("14: I again, of a place that another reads", "P,1 P,1 T T I,0,0 O,0,0 R,0,1 I,0,0", 14, 8);
    book.net("R and O between the same", "P,1 P,1 T I,0,0 O,0,1 R,1,0", 2, 1);
    book.net("R and H between the same", "P,1 P,1 T I,0,0 O,0,0 R,1,0 H,1,0", 2, 1);
    book.net("H and R between the same", "P,1 P,1 T I,0,0 O,0,0 H,1,0 R,1,0", 2, 1);
    book.net("R and I of different transitions", EACH_OTHER, 3, 2);
    book.no_net("15: R is no input", "P,1 T R,0,0 O,0,0", 15, 0);
    book.no_net("15: R is no output", "P,1 P,1 T I,0,0 R,1,0", 15, 0);
}

/// Every arc that 32 transitions and 32 places can have when each transition consumes from one place: 992 read arcs.
fn net_limits(book: &mut Book) {
    let arc = |p: usize, t: usize| if p == t { format!("I,{p},{t}") } else { format!("R,{p},{t}") };
    let pairs = (0..32).flat_map(|p| (0..32).map(move |t| format!("{} O,{t},{p} H,{p},{t}", arc(p, t))));
    let all = pairs.collect::<Vec<String>>().join(" ");
    let net = format!("{} {} {all}", times(32, "P,0"), times(32, "T"));
    book.net("every arc", &net, 32, 32);
    book.no_net("every arc and one again", &format!("{net} R,0,31"), 14, 3_137);
    book.no_net("every arc and one that is consumed too", &format!("{net} R,31,31"), 51, 3_137);
    book.no_net("every arc and one that is read too", &format!("{net} I,31,0"), 51, 3_137);
    let reads = (0..32).flat_map(|p| (0..32).map(move |t| format!("R,{p},{t} O,{t},{p}"))).collect::<Vec<String>>().join(" ");
    book.no_net("15: every place read by every transition", &format!("{} {} {reads}", times(32, "P,1"), times(32, "T")), 15, 0);
}

fn enabling(book: &mut Book) {
    book.not_built("24: no token to read", READ, "S,1 S,0", 24, 2);
    book.not_built("24: a token made in the step is not read in it", MADE, "S,0,1", 24, 1);
    book.not_built("24: own output is not read", "P,1 P,0 T I,0,0 O,0,1 R,1,0", "S,0", 24, 1);
    book.not_built("24: reading does not help the taker", "P,1 P,0 P,1 P,0 T T I,0,0 O,0,1 R,2,0 I,2,1 O,1,3", "S,0,1,1", 24, 1);
    let apart = "P,1 P,0 P,1 P,1 P,0 T T I,0,0 O,0,1 H,2,0 I,3,1 O,1,1 R,4,1";
    book.not_built("25: inhibited alone", apart, "S,0", 25, 1);
    book.not_built("24 before 25 over the step: the reader of another event", apart, "S,0,1", 24, 1);
    book.not_built("23 before 24", apart, &line_of('S', 129, 1), 23, 1);
    book.not_built("24 before 26", "P,511 P,0 P,0 T I,0,0 O,0,1 O,0,0 R,2,0", "S,0", 24, 1);
    book.not_built("read and inhibited: 25", BOTH, "S,0", 25, 1);
    book.not_built("read and inhibited: 24", BOTH, "S,1 S,0", 24, 2);
    book.not_built("each after the other", EACH_OTHER, "S,0 S,1", 24, 2);
    book.not_built("each after the other, the other way", EACH_OTHER, "S,1 S,0", 24, 2);
}

fn built(book: &mut Book) {
    let record = "E,0 E,1 C,0,-,0 C,2,-,1 C,1,0,- C,3,1,- R,1,0";
    book.built("read and taken in one step", READ, "S,0,1", record);
    book.built("read and taken in two steps", READ, "S,0 S,1", record);
    book.built("taker first in the step", READ, "S,1,0", "E,1 E,0 C,0,-,1 C,2,-,0 C,3,0,- C,1,1,- R,1,1");
    book.built("reading takes nothing", TWO_READERS, "S,0 S,0 S,1", TWO_READ);
    book.built("two readers of one token, and its taker", TWO_READERS, "S,0,0,1", TWO_READ);
    let spare = "P,2 P,0 P,2 T I,0,0 O,0,1 R,2,0";
    book.built("two readers of the lowest of two tokens", spare, "S,0,0", "E,0 E,0 C,0,-,0 C,0,-,1 C,2,-,- C,2,-,- C,1,0,- C,1,1,- R,2,0 R,2,1");
    book.built("a token made before", MADE, "S,0 S,1,2", MADE_READ);
    book.built("the lowest, taken in the step", TWO_TOKENS, "S,1,0", "E,1 E,0 C,0,-,1 C,2,-,0 C,2,-,- C,3,0,- C,1,1,- R,1,1");
    book.built("the lowest, taken later", TWO_TOKENS, "S,0 S,1", "E,0 E,1 C,0,-,0 C,2,-,1 C,2,-,- C,1,0,- C,3,1,- R,1,0");
    book.built("the next, the lowest gone", TWO_TOKENS, "S,1 S,0", "E,1 E,0 C,0,-,1 C,2,-,0 C,2,-,- C,3,0,- C,1,1,- R,2,1");
    book.built("own output unread", OWN, "S,0", "E,0 C,0,-,0 C,1,-,- C,1,0,- R,1,0");
    book.built("each other in one step", EACH_OTHER, "S,0,1", EACH_READ);
    let again = "P,2 P,0 P,1 T T I,0,0 O,0,1 R,2,0 I,2,1 O,1,2";
    let record = "E,1 E,0 E,0 C,0,-,1 C,0,-,2 C,2,-,0 C,2,0,- C,1,1,- C,1,2,- R,2,1 R,3,2";
    book.built("a token that comes again in the step", again, "S,1,0 S,0", record);
}

const TWO_READ: &str = "E,0 E,0 E,1 C,0,-,0 C,0,-,1 C,2,-,2 C,1,0,- C,1,1,- C,3,2,- R,2,0 R,2,1";
const MADE_READ: &str = "E,0 E,1 E,2 C,0,-,0 C,3,-,1 C,1,0,2 C,4,1,- C,2,2,- R,2,1";
const EACH_READ: &str = "E,0 E,1 C,0,-,0 C,1,-,1 C,2,0,- C,2,1,- R,1,0 R,0,1";

/// By event, then condition, whatever the letters.
fn mark_order(book: &mut Book) {
    let flushed = format!("{DRIVE} R,4,2");
    book.built("R behind A", &flushed, "S,0 S,1 S,2", &format!("{CASE_A} R,3,2"));
    book.not_built("24 before 25 at another place", &flushed, "S,0 S,2", 24, 2);
    let clean = format!("{DRIVE} R,0,2");
    book.built("R before B", &clean, "S,2 S,0", "E,2 E,0 C,0,-,1 C,2,-,0 C,3,0,- C,1,1,- R,0,0 B,3,0");
    let places = "P,1 P,0 P,1 P,1 P,1 T I,0,0 O,0,1 R,4,0 R,2,0 R,3,0";
    book.built("by condition, not by line of the net", places, "S,0", "E,0 C,0,-,0 C,2,-,- C,3,-,- C,4,-,- C,1,0,- R,1,0 R,2,0 R,3,0");
    let moved = "P,1 P,1 P,1 P,0 T T I,0,0 O,0,2 I,2,1 O,1,0 R,1,1 R,3,0";
    book.not_built("24 of a later place", moved, "S,0", 24, 1);
    let far = "P,1 P,509 P,1 P,0 T I,0,0 O,0,3 R,2,0";
    book.built("a high condition", far, "S,0", &format!("E,0 C,0,-,0 {} C,2,-,- C,3,0,- R,510,0", times(509, "C,1,-,-")));
    let later = "P,1 P,2 P,1 P,0 P,0 T T T I,0,0 O,0,3 I,1,1 O,1,4 R,3,1 R,2,1 I,2,2 O,2,2";
    let record = "E,0 E,2 E,1 C,0,-,0 C,1,-,2 C,1,-,- C,2,-,1 C,3,0,- C,2,1,- C,4,2,- R,4,2 R,5,2";
    book.built("by condition, not by place", later, "S,0 S,2 S,1", record);
}

fn record_lines(book: &mut Book) {
    for wrong in ["R", "R,", "R,0", "R,0,-", "R,-,0", "R,0,0,0", "R,00,0", "R,0,0~", "r,0,0", "R0,0"] {
        book.no_record("malformed R", READ, &format!("E,0 C,0,-,0 {wrong}"), 31, 3);
    }
    book.no_record("C after R", READ, "E,0 C,0,-,0 R,0,0 C,2,-,-", 31, 4);
    book.no_record("E after R", READ, "E,0 C,0,-,0 R,0,0 E,1", 31, 4);
    book.no_record("33: condition", READ, "E,0 C,0,-,0 R,1,0", 33, 3);
    book.no_record("33: event", READ, "E,0 C,0,-,0 R,0,1", 33, 3);
    book.no_record("33: nothing declared", READ, "R,0,0", 33, 1);
    book.no_record("34: R again", READ, "E,0 C,0,-,0 R,0,0 R,0,0", 34, 4);
    book.no_record("34: R again behind B", READ, "E,0 C,0,-,0 R,0,0 B,0,0 R,0,0", 34, 5);
    book.no_record("34: A beside B, R between", READ, "E,0 C,0,-,0 B,0,0 R,0,0 A,0,0", 34, 5);
    book.no_record("34: R beside B is none", READ, "E,0 C,0,-,0 B,0,0 R,0,0", 35, 2);
    book.no_record("34: A beside R is none", READ, "E,0 C,0,-,0 R,0,0 A,0,0", 35, 2);
}

fn marks(book: &mut Book) {
    let unmarked = "E,0 E,1 C,0,-,0 C,2,-,1 C,1,0,- C,3,1,-";
    book.no_record("37: missing", READ, unmarked, 37, 0);
    book.no_record("37: B in its place", READ, &format!("{unmarked} B,2,0"), 37, 0);
    book.no_record("37: A in its place", READ, &format!("{unmarked} A,1,0"), 37, 0);
    book.no_record("37: on a condition of another place", READ, &format!("{unmarked} R,0,0"), 37, 0);
    book.no_record("37: at another event", READ, &format!("{unmarked} R,1,1"), 37, 0);
    book.no_record("37: undue besides", READ, &format!("{unmarked} R,1,0 R,2,1"), 37, 1);
    book.no_record("37: undue at the same event", READ, &format!("{unmarked} R,1,0 R,3,0"), 37, 0);
    book.no_record("37: B beside it", READ, &format!("{unmarked} R,1,0 B,1,0"), 37, 0);
    let two = "E,0 E,1 C,0,-,0 C,2,-,1 C,2,-,- C,1,0,- C,3,1,-";
    book.no_record("37: two conditions of the place", TWO_TOKENS, &format!("{two} R,1,0 R,2,0"), 37, 0);
    let both = "E,0 E,1 C,0,-,0 C,1,-,1 C,3,-,- C,2,0,- C,2,1,-";
    book.checked("due of either kind", READ_AND_WATCH, &format!("{both} R,2,0 B,3,1"), [2, 5, 0], &[(1, 0, 1)]);
    book.no_record("37: R and B missing, the lower event reads", READ_AND_WATCH, both, 37, 0);
    book.no_record("37: B missing", READ_AND_WATCH, &format!("{both} R,2,0"), 37, 1);
    let turned = "E,1 E,0 C,0,-,1 C,1,-,0 C,3,-,- C,2,0,- C,2,1,-";
    book.no_record("37: R and B missing, the lower event watches", READ_AND_WATCH, turned, 37, 0);
    book.no_record("37: R missing", READ_AND_WATCH, &format!("{turned} B,4,0"), 37, 1);
    book.no_record("37 of R before 38", READ_AND_WATCH, &format!("{both} A,3,1"), 37, 0);
    book.no_record("38 beside a right R", READ_AND_WATCH, &format!("{both} R,2,0 A,3,1"), 38, 1);
    book.checked("38 is silent on R: initial, unconsumed", OWN, "E,0 C,0,-,0 C,1,-,- C,1,0,- R,1,0", [1, 3, 0], &[]);
    book.no_record("39: own product", OWN, "E,0 C,0,-,0 C,1,-,- C,1,0,- R,2,0", 39, 0);
}

/// A place both read and inhibiting: such a record is read, and is no process.
fn inhibited_too(book: &mut Book) {
    let consumed = "E,0 E,1 C,0,-,0 C,2,-,1 C,1,0,- C,3,1,-";
    book.no_record("39: A beside R", BOTH, &format!("{consumed} A,1,0 R,1,0"), 39, 0);
    book.no_record("39: R before A", BOTH, &format!("{consumed} R,1,0 A,1,0"), 39, 0);
    book.no_record("38: B beside R", BOTH, &format!("{consumed} B,1,0 R,1,0"), 38, 0);
    book.no_record("38: A beside R on an unconsumed one", BOTH, "E,0 C,0,-,0 C,2,-,- C,1,0,- A,1,0 R,1,0", 38, 0);
    book.no_record("37: R without A", BOTH, &format!("{consumed} R,1,0"), 37, 0);
    book.no_record("37: A without R", BOTH, &format!("{consumed} A,1,0"), 37, 0);
    let filled = "P,1 P,0 T I,0,0 O,0,1 R,1,0 H,1,0";
    book.no_record("39: own product, which is not inhibited", filled, "E,0 C,0,-,0 C,1,0,- R,1,0", 39, 0);
    let made = "P,1 P,1 P,0 P,0 T T I,0,0 O,0,2 I,1,1 O,1,3 R,2,1 H,2,1";
    book.no_record("39: B beside R on a made one", made, "E,0 E,1 C,0,-,0 C,1,-,1 C,2,0,- C,3,1,- B,2,1 R,2,1", 39, 0);
}

fn orders(book: &mut Book) {
    let record = "E,0 E,1 C,0,-,0 C,2,-,1 C,1,0,- C,3,1,- R,1,0";
    book.checked("reader not later than the taker", READ, record, [2, 4, 0], &[(0, 1, 1)]);
    book.arranged("on one line", READ, record, "G,0,1");
    book.replayed("reader first", READ, record, "G,0 G,1", &[&[1, 0, 1, 0], &[0, 1, 1, 0], &[0, 1, 0, 1]]);
    book.replayed("together", READ, record, "G,1,0", &[&[1, 0, 1, 0], &[0, 1, 0, 1]]);
    book.not_replayed("reader after the taker", READ, record, "G,1 G,0", 44, 1);
    book.checked("two readers", TWO_READERS, TWO_READ, [3, 6, 1], &[(0, 2, 1), (1, 2, 1)]);
    book.checked("producer strictly before the reader", MADE, MADE_READ, [3, 5, 0], &[(0, 1, 2), (0, 2, 2), (1, 2, 1)]);
    book.arranged("behind the producer", MADE, MADE_READ, "G,0 G,1,2");
    book.not_replayed("beside the producer", MADE, MADE_READ, "G,0,1 G,2", 44, 1);
    book.checked("weak both ways", EACH_OTHER, EACH_READ, [2, 4, 0], &[(0, 1, 1), (1, 0, 1)]);
    book.arranged("each other on one line", EACH_OTHER, EACH_READ, "G,0,1");
    book.not_replayed("each other parted", EACH_OTHER, EACH_READ, "G,0 G,1", 44, 1);
    let turned = "E,1 E,0 C,0,-,1 C,1,-,0 C,2,0,- C,2,1,- R,1,1 R,0,0";
    book.checked("marks in any order", EACH_OTHER, turned, [2, 4, 0], &[(0, 1, 1), (1, 0, 1)]);
}

/// Other processes of the same net: another token read than the builder's.
fn other_conditions(book: &mut Book) {
    let taken = "E,0 E,1 C,0,-,0 C,2,-,1 C,2,-,- C,1,0,- C,3,1,-";
    book.checked("the builder's", TWO_TOKENS, &format!("{taken} R,1,0"), [2, 5, 0], &[(0, 1, 1)]);
    book.checked("another of the place", TWO_TOKENS, &format!("{taken} R,2,0"), [2, 5, 1], &[]);
    book.replayed("the taker first", TWO_TOKENS, &format!("{taken} R,2,0"), "G,1 G,0", &[&[1, 0, 2, 0], &[1, 0, 1, 1], &[0, 1, 1, 1]]);
    let again = "P,1 P,0 P,1 T T I,0,0 O,0,1 R,2,0 I,2,1 O,1,2";
    let taken = "E,0 E,1 C,0,-,0 C,2,-,1 C,1,0,- C,2,1,-";
    book.checked("the old one", again, &format!("{taken} R,1,0"), [2, 4, 0], &[(0, 1, 1)]);
    book.checked("the new one", again, &format!("{taken} R,3,0"), [2, 4, 0], &[(1, 0, 2)]);
    let chain = "E,1 E,0 E,1 C,0,-,1 C,2,-,0 C,1,1,- C,2,0,2 C,2,2,-";
    book.checked("between", again, &format!("{chain} R,3,1"), [3, 5, 0], &[(0, 1, 2), (0, 2, 2), (1, 2, 1)]);
}

/// Transition 0 reads place 2 and is inhibited by what it makes: so many events of it have so many squared marks. Transition 1
/// reads place 2 too.
fn full_net(tokens: usize) -> String {
    format!("P,99 P,0 P,{tokens} P,1 P,0 T T I,0,0 O,0,1 H,1,0 R,2,0 I,3,1 O,1,4 R,2,1")
}

/// The record of 64 events of transition 0 in one step: 4,096 marks.
fn full_record(tokens: usize) -> String {
    let taken = (0..64).map(|event| format!("C,0,-,{event}"));
    let left = [times(35, "C,0,-,-"), times(tokens, "C,2,-,-"), "C,3,-,-".to_string()];
    let made = (0..64).map(|event| format!("C,1,{event},-"));
    let others = |event: usize| (0..64).filter(move |other| *other != event).map(move |other| format!("B,{},{event}", 100 + tokens + other));
    let marks = (0..64).flat_map(|event| [format!("R,99,{event}")].into_iter().chain(others(event)));
    let lines: Vec<String> = taken.chain(left).chain(made).chain(marks).collect();
    format!("{} {}", times(64, "E,0"), lines.join(" "))
}

fn marks_limit(book: &mut Book) {
    let step = line_of('S', 64, 0);
    book.built("27: 4,096 marks with 64 R", &full_net(1), &step, &full_record(1));
    book.built("27: 4,096 marks, two tokens to read", &full_net(2), &step, &full_record(2));
    let table: Vec<(usize, usize, u8)> = (0..64).flat_map(|e| (0..64).filter(move |f| *f != e).map(move |f| (e, f, 1))).collect();
    book.checked("32: 4,096 marks with 64 R checked", &full_net(1), &full_record(1), [64, 165, 0], &table);
    book.not_built("27: one R more", &full_net(1), &format!("{step} S,1"), 27, 2);
    let two = "P,99 P,0 P,1 P,1 T I,0,0 O,0,1 H,1,0 R,2,0 R,3,0";
    book.not_built("27: 4,160 marks, 4,032 of them B", two, &line_of('S', 64, 0), 27, 1);
    book.not_built("26 before 27", "P,480 P,0 P,1 P,1 T I,0,0 O,0,1 H,1,0 R,2,0 R,3,0", &line_of('S', 64, 0), 26, 1);
}

fn record_limit(book: &mut Book) {
    let pairs = |letter: char| (0..4).flat_map(move |event| (0..512).map(move |condition| format!("{letter},{condition},{event}")));
    let marks: Vec<String> = pairs('B').chain(pairs('R')).collect();
    let full = format!("{} {} {}", times(9, "E,0"), times(512, "C,0,-,-"), marks.join(" "));
    book.no_record("32: 4,096 marks, each pair with a B and an R, pass", LOOP, &full, 35, 0);
    book.no_record("32: one R more", LOOP, &format!("{full} R,0,8"), 32, 4_618);
    book.no_record("32 before 33", LOOP, &format!("{full} R,512,8"), 32, 4_618);
    book.no_record("32 before 34", LOOP, &format!("{full} R,0,0"), 32, 4_618);
    many_readers(book);
}

/// 127 events read the token that the last one takes.
fn many_readers(book: &mut Book) {
    let net = "P,127 P,0 P,1 P,0 T T I,0,0 O,0,1 R,2,0 I,2,1 O,1,3";
    let taken = (0..127).map(|event| format!("C,0,-,{event}"));
    let made = (0..127).map(|event| format!("C,1,{event},-"));
    let reads = (0..127).map(|event| format!("R,127,{event}"));
    let lines: Vec<String> = taken.chain(["C,2,-,127".to_string()]).chain(made).chain(["C,3,127,-".to_string()]).chain(reads).collect();
    let record = format!("{} E,1 {}", times(127, "E,0"), lines.join(" "));
    book.built("127 readers, one a line", net, &format!("{} S,1", times(127, "S,0")), &record);
    book.built("127 readers and the taker on a line", net, &format!("{},1", line_of('S', 127, 0)), &record);
    let table: Vec<(usize, usize, u8)> = (0..127).map(|event| (event, 127, 1)).collect();
    book.checked("127 readers checked", net, &record, [128, 256, 8_128 - 127], &table);
}

fn printed(book: &mut Book) {
    book.printed("a reader and a taker", &format!("{READ} = S,0,1"), "E,0 E,1 C,0,-,0 C,2,-,1 C,1,0,- C,3,1,- R,1,0 Z,2,4,0,1");
    book.printed("a token made and read", &format!("{MADE} = S,0 S,1,2"), &format!("{MADE_READ} Z,3,5,0,2"));
    book.printed("no token to read", &format!("{READ} = S,1 S,0"), "X,24,2");
    book.printed("read and consumed", "P,1 T O,0,0 I,0,0 R,0,0 = S,0", "X,51,5");
}
