//! Logs, steps and building.

use super::*;

/// Many tokens, one transition that moves them.
const STORE: &str = "P,200 P,0 T I,0,0 O,0,1";
/// A transition whose own output inhibits it.
const SELF: &str = "P,9 P,0 T I,0,0 O,0,1 H,1,0";

pub fn add(book: &mut Book) {
    texts(book);
    order_of_refusals(book);
    enabling(book);
    events_limit(book);
    conditions_limit(book);
    marks_limit(book);
    records(book);
}

fn texts(book: &mut Book) {
    for wrong in ["S", "S,", "S,00", "S,01", "S,10000", "S,-", "S,0,", "S,,0", "S,0~", "s,0", "S,0,x", "T", "P,1", "G,0", "=", "S0", "S,-0", "S,0;0"] {
        book.not_built("1 to 9: malformed log line", DRIVE, wrong, 21, 1);
    }
    book.not_built("2: unknown transition", DRIVE, "S,9999", 22, 1);
    book.not_built("22 at the first unknown", DRIVE, "S,3", 22, 1);
    book.not_built("22 among known ones", DRIVE, "S,0 S,1,3,2", 22, 2);
    book.not_built("16: no transitions", "P,1", "S,0", 22, 1);
    book.built("16: empty net, empty log", "", "", "");
    let case = Case::new(Operation::Build, &[b"P,1\n", b"\n"]);
    book.add("4: empty log line", case, Answer::refuses(21, 1), Written::Nothing);
}

fn order_of_refusals(book: &mut Book) {
    book.not_built("19: line by line", DRIVE, "S,0 S,2 x", 25, 2);
    book.not_built("net's before the log's", "P,1 T", "x", 15, 0);
    let one = "P,1 P,0 T I,0,0 O,0,1";
    book.not_built("20: 22 before 23", one, &format!("{},1", line_of('S', 150, 0)), 22, 1);
    book.not_built("20: 21 before 22", one, &format!("{},1~", line_of('S', 150, 0)), 21, 1);
    book.not_built("20: 21 at the end of the line before 22", one, "S,7,x", 21, 1);
    book.not_built("20: 23 before 24", one, &line_of('S', 129, 0), 23, 1);
    book.not_built("20: 24 at 128", one, &line_of('S', 128, 0), 24, 1);
    book.not_built("a very long line", one, &line_of('S', 20_000, 0), 23, 1);
    book.not_built("22: 24 before 25", DRIVE, "S,0 S,2,0", 24, 2);
    book.not_built("22: 24 before 25, the inhibitor at a lower place", "P,1 P,0 P,0 T I,1,0 O,0,2 H,0,0", "S,0", 24, 1);
    book.not_built("29: 25 before 26", "P,512 P,0 T I,0,0 O,0,1 H,0,0", "S,0", 25, 1);
    book.not_built("29: 24 before 26", "P,0 P,512 T I,0,0 O,0,1", "S,0", 24, 1);
}

fn enabling(book: &mut Book) {
    book.not_built("23: repeats take their own tokens", DRIVE, "S,0,0", 24, 1);
    book.not_built("24: a token taken in the step inhibits", DRIVE, "S,0 S,1,2", 25, 2);
    let pipe = "P,1 P,0 P,0 T T I,0,0 O,0,1 I,1,1 O,1,2";
    book.not_built("25: a token made in the step is of no use in it", pipe, "S,0,1", 24, 1);
    book.built("25: a token made in the step does not inhibit in it", MUTUAL, "S,0,1", MUTUAL_RECORD);
    book.not_built("25: but in the next", MUTUAL, "S,0 S,1", 25, 2);
    let outputs = times(7, "C,0,-,-");
    let twice = format!("E,0 E,0 C,0,-,0 C,0,-,1 {outputs} C,1,0,- C,1,1,- B,10,0 B,9,1");
    book.built("26, 35: own output inhibits, twice in a step", SELF, "S,0,0", &twice);
    book.checked("26: all-weak cycle", SELF, &twice, [2, 11, 0], &[(0, 1, 1), (1, 0, 1)]);
    book.arranged("26: on one line", SELF, &twice, "G,0,1");
    book.not_built("26: not in two steps", SELF, "S,0 S,0", 25, 2);
    book.built("inhibited and taken later", DRIVE, "S,2 S,0 S,1", "E,2 E,0 E,1 C,0,-,1 C,2,-,0 C,3,0,- C,1,1,2 C,4,2,- B,3,0");
}

fn events_limit(book: &mut Book) {
    book.not_built("21: 129 lines", STORE, &times(129, "S,0"), 23, 129);
    book.not_built("21: 128 and one", STORE, &format!("{} S,0", line_of('S', 128, 0)), 23, 2);
    book.not_built("21: 100 and 29", STORE, &format!("{} {}", line_of('S', 100, 0), line_of('S', 29, 0)), 23, 2);
    book.built("run only: 128 events, a line each", STORE, &times(128, "S,0"), &store_record(200, 128));
    book.built("run only: 128 events on one line", STORE, &line_of('S', 128, 0), &store_record(200, 128));
    book.checked("32: 128 events checked", STORE, &store_record(200, 128), [128, 328, 8_128], &[]);
}

/// The record of so many events that each move one of so many tokens, in any steps.
fn store_record(tokens: usize, events: usize) -> String {
    let taken = (0..events).map(|event| format!("C,0,-,{event}"));
    let left = (events..tokens).map(|_| "C,0,-,-".to_string());
    let made = (0..events).map(|event| format!("C,1,{event},-"));
    let conditions: Vec<String> = taken.chain(left).chain(made).collect();
    format!("{} {}", times(events, "E,0"), conditions.join(" "))
}

fn conditions_limit(book: &mut Book) {
    let net = |tokens: usize| format!("P,{tokens} P,0 T I,0,0 O,0,1");
    book.built("27: 512 conditions", &net(384), &line_of('S', 128, 0), &store_record(384, 128));
    book.not_built("27: 513 conditions", &net(385), &line_of('S', 128, 0), 26, 1);
    book.not_built("27: 513 conditions, line by line", &net(385), &times(128, "S,0"), 26, 128);
    book.not_built("27: 512 tokens and one made", &net(512), "S,0", 26, 1);
    book.built("27: 512 tokens, nothing made", &net(512), "", &times(512, "C,0,-,-"));
    book.not_built("26 before 27", "P,480 P,0 T I,0,0 O,0,1 H,1,0", &line_of('S', 65, 0), 26, 1);
}

fn marks_limit(book: &mut Book) {
    let watch = "P,200 P,0 P,0 P,0 P,0 T T T T I,0,0 O,0,1 H,2,0 H,3,0 I,0,1 O,1,2 O,1,3 I,0,2 O,2,1 H,4,2 I,0,3 O,3,4";
    let full = format!("{} {}", line_of('S', 64, 0), line_of('S', 32, 1));
    book.not_built("28: B marks on earlier events count", watch, &format!("{full} S,1"), 27, 3);
    book.not_built("28: 4,097 marks", watch, &format!("{full} S,2 S,3"), 27, 4);
    book.not_built("28: 23 is sooner", watch, &format!("{full} {}", line_of('S', 33, 1)), 23, 3);
    book.not_built("28: 65 self-inhibiting", "P,99 P,0 T I,0,0 O,0,1 H,1,0", &line_of('S', 65, 0), 27, 1);
    let watched = watched_record();
    book.built("28: 4,096 marks", watch, &full, &watched);
    book.checked("32: 4,096 marks checked", watch, &watched, [96, 328, 64 * 63 / 2 + 32 * 31 / 2], &watched_table());
}

/// 64 events of transition 0, before 32 of transition 1, which fill places 2 and 3.
fn watched_record() -> String {
    let events = format!("{} {}", times(64, "E,0"), times(32, "E,1"));
    let taken = (0..96).map(|event| format!("C,0,-,{event}"));
    let left = (96..200).map(|_| "C,0,-,-".to_string());
    let sunk = (0..64).map(|event| format!("C,1,{event},-"));
    let filled = (64..96).flat_map(|event| [format!("C,2,{event},-"), format!("C,3,{event},-")]);
    let marks = (0..64).flat_map(|event| (264..328).map(move |condition| format!("B,{condition},{event}")));
    let lines: Vec<String> = taken.chain(left).chain(sunk).chain(filled).chain(marks).collect();
    format!("{events} {}", lines.join(" "))
}

fn watched_table() -> Vec<(usize, usize, u8)> {
    (0..64).flat_map(|watcher| (64..96).map(move |filler| (watcher, filler, 1))).collect()
}

fn records(book: &mut Book) {
    book.built("30: events as written", DRIVE, "S,2,0", "E,2 E,0 C,0,-,1 C,2,-,0 C,3,0,- C,1,1,- B,3,0");
    let backwards = "P,1 P,0 P,0 T I,0,0 O,0,2 O,0,1 O,0,0";
    book.built("31: outputs by place", backwards, "S,0", "E,0 C,0,-,0 C,0,0,- C,1,0,- C,2,0,-");
    let two = "P,2 T I,0,0 O,0,0";
    book.built("32: the lowest condition", two, "S,0 S,0", "E,0 E,0 C,0,-,0 C,0,-,1 C,0,0,- C,0,1,-");
    book.built("32: and the next in the step", two, "S,0,0 S,0", "E,0 E,0 E,0 C,0,-,0 C,0,-,1 C,0,0,2 C,0,1,- C,0,2,-");
    book.built("33: A is for earlier steps", DRIVE, "S,2 S,0 S,1", "E,2 E,0 E,1 C,0,-,1 C,2,-,0 C,3,0,- C,1,1,2 C,4,2,- B,3,0");
    let again = "P,1 P,0 P,2 P,0 T T T I,0,0 O,0,1 I,1,1 O,1,0 I,2,2 O,2,3 H,1,2";
    let mixed = "E,2 E,0 E,1 E,2 E,0 C,0,-,1 C,2,-,0 C,2,-,3 C,3,0,- C,1,1,2 C,0,2,4 C,3,3,- C,1,4,- B,4,0 B,7,0 A,4,3 B,7,3";
    book.built("33, 34: both kinds, by event then condition", again, "S,2 S,0 S,1 S,2,0", mixed);
    book.built("34: by event first", MUTUAL, "S,1,0", "E,1 E,0 C,0,-,1 C,1,-,0 C,3,0,- C,2,1,- B,3,0 B,2,1");
}
