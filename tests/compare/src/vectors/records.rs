//! Proposed records: their text and the rules of a process.

use super::*;

pub fn add(book: &mut Book) {
    texts(book);
    limits(book);
    declarations(book);
    counts(book);
    marks(book);
    cycles(book);
    tables(book);
}

fn texts(book: &mut Book) {
    let wrong = [
        "E", "E,", "E,-", "E,00", "E,0,0", "E,10000", "E,0~", "C,0,-", "C,0,-,-,-", "C,-,-,-", "C,0,--,-", "C,0,,-", "C,00,-,-", "C,0,-,00", "B,0", "B,0,-", "B,-,0", "A,0,0,0",
        "B,0,00", "e,0", "Z,0,0,0,0", "S,0", "G,0", "P,1", "T", "X,1,1", "=", "C,0,-,-~", "B0,0", "C,0,-0,-", "C,0,-,1-",
    ];
    for line in wrong {
        book.no_record("1 to 9: malformed record line", DRIVE, line, 31, 1);
    }
    book.no_record("37: E after C", DRIVE, "E,0 C,0,-,0 E,2", 31, 3);
    book.no_record("37: E after a mark", DRIVE, "E,0 C,0,-,0 B,0,0 E,2", 31, 4);
    book.no_record("37: C after a mark", DRIVE, "E,0 C,0,-,0 A,0,0 C,0,-,-", 31, 4);
    book.no_record("37: a mark without conditions", DRIVE, "E,0 B,0,0", 33, 2);
    book.no_record("37: out of order before undeclared", DRIVE, "C,0,-,- E,9", 31, 2);
    book.no_record("line by line", DRIVE, "E,9 x", 33, 1);
    book.no_record("net's before the record's", "x", "x", 11, 1);
    book.checked("16: empty net, empty record", "", "", [0, 0, 0], &[]);
    book.no_record("empty record, tokens missing", DRIVE, "", 35, 0);
}

fn limits(book: &mut Book) {
    book.no_record("32: a 129th E", LOOP, &times(129, "E,0"), 32, 129);
    book.no_record("32: a 129th E, of an unknown transition", LOOP, &format!("{} E,7", times(128, "E,0")), 32, 129);
    book.no_record("32: 128 E pass", LOOP, &times(128, "E,0"), 35, 0);
    book.checked("32: 512 C pass", "P,512", &times(512, "C,0,-,-"), [0, 512, 0], &[]);
    book.no_record("32: a 513th C", "P,512", &times(513, "C,0,-,-"), 32, 513);
    let marks = (0..8).flat_map(|event| (0..512).map(move |condition| format!("B,{condition},{event}")));
    let full = format!("{} {} {}", times(9, "E,0"), times(512, "C,0,-,-"), marks.collect::<Vec<String>>().join(" "));
    book.no_record("32: 4,096 marks pass", LOOP, &full, 35, 0);
    book.no_record("32: a 4,097th mark", LOOP, &format!("{full} A,0,8"), 32, 4_618);
    book.no_record("40: 32 before 33", LOOP, &format!("{full} A,512,8"), 32, 4_618);
    book.no_record("40: 32 before 34", LOOP, &format!("{full} B,0,0"), 32, 4_618);
}

fn declarations(book: &mut Book) {
    book.no_record("33: transition", DRIVE, "E,3", 33, 1);
    book.no_record("33: place", DRIVE, "C,5,-,-", 33, 1);
    book.no_record("33: producer", DRIVE, "E,0 C,0,1,-", 33, 2);
    book.no_record("33: consumer", DRIVE, "E,0 C,0,-,1", 33, 2);
    book.no_record("33: condition of a mark", DRIVE, "E,0 C,0,-,0 B,1,0", 33, 3);
    book.no_record("33: event of a mark", DRIVE, "E,0 C,0,-,0 B,0,1", 33, 3);
    book.no_record("33: four digits", DRIVE, "E,9999", 33, 1);
    book.no_record("34: the same mark again", DRIVE, "E,0 C,0,-,0 B,0,0 B,0,0", 34, 4);
    book.no_record("41: the other letter", DRIVE, "E,2 E,0 E,1 C,0,-,1 C,2,-,0 C,3,0,- C,1,1,2 C,4,2,- B,3,0 A,3,0", 34, 10);
    book.no_record("34: not the next one", DRIVE, "E,0 E,0 C,0,-,0 C,0,-,0 B,0,0 A,0,1 B,1,0 B,1,1 A,1,0", 34, 9);
}

fn counts(book: &mut Book) {
    book.no_record("42: too few", DRIVE, "C,0,-,-", 35, 2);
    book.no_record("42: too many", DRIVE, "C,0,-,- C,2,-,- C,2,-,-", 35, 2);
    book.no_record("42: at a place without tokens", DRIVE, "C,0,-,- C,2,-,- C,4,-,-", 35, 4);
    book.no_record("42: lowest place", DRIVE, "C,4,-,- C,1,-,-", 35, 0);
    book.no_record("35 before 36", DRIVE, "E,0 C,0,-,-", 35, 2);
    book.no_record("43: event 0 lacks an output, event 1 an input", DRIVE, "E,0 E,1 E,2 C,0,-,0 C,2,-,2 C,4,1,- C,3,2,-", 36, 0);
    book.no_record("43: event 0 lacks an input, event 1 has all", DRIVE, "E,0 E,2 C,0,-,- C,2,-,1 C,1,0,- C,3,1,-", 36, 0);
    book.no_record("36: event 1 lacks an input", DRIVE, "E,0 E,2 C,0,-,0 C,2,-,- C,1,0,- C,3,1,-", 36, 1);
    book.no_record("36: output at a place without arc", DRIVE, "E,2 C,0,-,- C,2,-,0 C,3,0,- C,4,0,-", 36, 0);
    book.no_record("36: input at a place without arc", DRIVE, "E,2 C,0,-,0 C,2,-,0 C,3,0,-", 36, 0);
    book.no_record("36: output twice", DRIVE, "E,2 C,0,-,- C,2,-,0 C,3,0,- C,3,0,-", 36, 0);
    book.no_record("36: input twice", "P,2 P,0 T I,0,0 O,0,1", "E,0 C,0,-,0 C,0,-,0 C,1,0,-", 36, 0);
    book.no_record("36 before 37", DRIVE, "E,2 E,0 C,0,-,1 C,2,-,0 C,3,0,- B,0,0", 36, 1);
}

fn marks(book: &mut Book) {
    book.no_record("44: undue on event 0, missing on event 2", DRIVE, &format!("{CASE_A_UNMARKED} B,4,0"), 37, 0);
    book.no_record("35 of the shut out: own output marked", "P,1 P,0 T I,0,0 O,0,1 H,1,0", "E,0 C,0,-,0 C,1,0,- B,1,0", 37, 0);
    book.checked("own output unmarked", "P,1 P,0 T I,0,0 O,0,1 H,1,0", "E,0 C,0,-,0 C,1,0,-", [1, 2, 0], &[]);
    book.no_record("undue beside the due one", DRIVE, &format!("{CASE_B} B,3,0"), 37, 0);
    book.no_record("37 before 38", DRIVE, "E,0 E,2 C,0,-,0 C,2,-,1 C,1,0,- C,3,1,- A,2,1 A,3,1", 37, 1);
    let mutual = "E,0 E,1 C,0,-,0 C,1,-,1 C,2,0,- C,3,1,-";
    book.no_record("45: lowest marked event, not the first in the text", MUTUAL, &format!("{mutual} A,2,1 A,3,0"), 38, 0);
    book.no_record("45: the marked event", MUTUAL, &format!("{mutual} B,3,0 A,2,1"), 38, 1);
    let gone = "P,1 P,1 P,0 T T I,0,0 O,0,2 I,1,1 O,1,2 H,0,1";
    let run = "E,0 E,1 C,0,-,0 C,1,-,1 C,2,0,- C,2,1,-";
    book.checked("A on an initial condition", gone, &format!("{run} A,0,1"), [2, 4, 0], &[(0, 1, 2)]);
    book.no_record("B on an initial condition", gone, &format!("{run} B,0,1"), 38, 1);
    book.no_record("38 before 39", "P,1 P,0 T I,0,0 O,0,1 H,0,0", "E,0 C,0,-,0 C,1,0,- B,0,0", 38, 0);
}

fn cycles(book: &mut Book) {
    let walk_net = "P,1 P,1 P,0 P,0 P,0 P,0 P,0 T T T I,0,0 O,0,2 H,3,0 I,1,1 O,1,3 O,1,4 O,1,5 H,2,1 I,4,2 O,2,6 H,5,2";
    let walk = "E,0 E,1 E,2 C,0,-,0 C,1,-,1 C,2,0,- C,3,1,- C,4,1,2 C,5,1,- C,6,2,- B,3,0 B,2,1 B,5,2";
    book.no_record("46: a closed walk that is no simple cycle", walk_net, walk, 39, 0);
    book.no_record("47: producer and consumer the same", "P,0 T I,0,0 O,0,0", "E,0 C,0,0,0", 39, 0);
    let taken = "P,1 P,0 P,0 T T I,0,0 O,0,1 I,1,1 O,1,2 H,1,1";
    book.no_record("48: B on what the event consumes", taken, "E,0 E,1 C,0,-,0 C,1,0,1 C,2,1,- B,1,1", 39, 0);
    book.no_record("48: A on what the event consumes", taken, "E,0 E,1 C,0,-,0 C,1,0,1 C,2,1,- A,1,1", 39, 1);
    book.no_record("39: strict cycle of two", "P,0 P,0 T T I,0,0 O,0,1 I,1,1 O,1,0", "E,0 E,1 C,1,0,1 C,0,1,0", 39, 0);
    book.no_record("39: not the successor of the cycle's predecessor", "P,1 P,0 T T I,0,0 O,0,0 I,1,1 O,1,1", "E,0 E,1 C,0,-,0 C,0,0,- C,1,1,1", 39, 1);
}

fn tables(book: &mut Book) {
    book.checked("50: mutual weak pairs are no independent pair (2026-04)", MUTUAL, MUTUAL_RECORD, [2, 4, 0], &[(0, 1, 1), (1, 0, 1)]);
    book.checked("38: marks in another order", MUTUAL, "E,0 E,1 C,3,1,- C,1,-,1 C,2,0,- C,0,-,0 B,2,1 B,0,0", [2, 4, 0], &[(0, 1, 1), (1, 0, 1)]);
    let chosen = "E,0 E,0 C,0,-,1 C,0,-,0 C,1,0,- C,1,1,-";
    book.checked("39: another condition taken", "P,2 P,0 T I,0,0 O,0,1", chosen, [2, 4, 1], &[]);
    let newest = "E,0 E,0 C,0,-,0 C,0,-,- C,0,0,1 C,0,1,-";
    book.checked("39: the newest condition taken", "P,2 T I,0,0 O,0,0", newest, [2, 4, 0], &[(0, 1, 2)]);
    let backwards = "E,4 E,3 E,2 E,1 E,0 C,0,-,4 C,1,4,3 C,2,3,2 C,3,2,1 C,4,1,0 C,5,0,-";
    let all: Vec<(usize, usize, u8)> = (0..5).flat_map(|f| (f + 1..5).map(move |e| (e, f, 2))).collect();
    book.checked("38: events against the run", PIPE, backwards, [5, 6, 0], &all);
    book.arranged("38: arranged", PIPE, backwards, "G,4 G,3 G,2 G,1 G,0");
    let conditions: Vec<String> = (0..128).map(|e| format!("C,0,{e},{}", if e < 127 { (e + 1).to_string() } else { "-".to_string() })).collect();
    let chain = format!("{} C,0,-,0 {}", times(128, "E,0"), conditions.join(" "));
    let all: Vec<(usize, usize, u8)> = (0..128).flat_map(|f| (0..f).map(move |e| (e, f, 2))).collect();
    book.checked("128 events in a row", LOOP, &chain, [128, 129, 0], &all);
    let lines: Vec<String> = (0..128).map(|event| format!("G,{event}")).collect();
    book.arranged("128 lines, the longest text", LOOP, &chain, &lines.join(" "));
    let ones: Vec<&[u16]> = vec![&[1]; 129];
    book.replayed("128 lines replayed", LOOP, &chain, &lines.join(" "), &ones);
}

/// Five transitions in a row.
const PIPE: &str = "P,1 P,0 P,0 P,0 P,0 P,0 T T T T T I,0,0 O,0,1 I,1,1 O,1,2 I,2,2 O,2,3 I,3,3 O,3,4 I,4,4 O,4,5";
