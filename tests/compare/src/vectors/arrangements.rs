//! Arrangements, replay and arranging.

use super::*;

const BEFORE: &[u16] = &[1, 0, 1, 0, 0];
const PARKED: &[u16] = &[1, 0, 0, 1, 0];
const BOTH: &[u16] = &[0, 1, 0, 1, 0];

pub fn add(book: &mut Book) {
    texts(book);
    refusals(book);
    rows(book);
    levels(book);
}

fn texts(book: &mut Book) {
    for wrong in ["G", "G,", "G,00", "G,01", "G,10000", "G,-", "G,0,", "G,,0", "G,0~", "g,0", "G0", "S,0", "E,0", "T", "=", "G,0,1,x"] {
        book.not_replayed("1 to 9: malformed arrangement line", DRIVE, CASE_B, wrong, 41, 1);
    }
    let case = Case::new(Operation::Replay, &[&Text::from(DRIVE).0, &Text::from(CASE_B).0, b"G,1\n\n"]);
    book.add("4: empty arrangement line", case, Answer::refuses(41, 2), Written::Nothing);
    book.not_replayed("61: the net's line", "x", CASE_B, "G,0,1", 11, 1);
    book.not_replayed("61: the record's line", DRIVE, "E,0 x", "x", 31, 2);
}

fn refusals(book: &mut Book) {
    book.not_replayed("42: unknown event", DRIVE, CASE_B, "G,2", 42, 1);
    book.not_replayed("42 before 43 over the line", DRIVE, CASE_B, "G,1,1,2", 42, 1);
    book.not_replayed("42 before 43 of an earlier line", DRIVE, CASE_B, "G,1 G,1,2", 42, 2);
    book.not_replayed("43: in the line", DRIVE, CASE_B, "G,1,1", 43, 1);
    book.not_replayed("43: in an earlier line", DRIVE, CASE_B, "G,1 G,0,1", 43, 2);
    book.not_replayed("43 before 44", DRIVE, CASE_B, "G,0,0", 43, 1);
    book.not_replayed("43 before 45", DRIVE, CASE_B, "G,1 G,1", 43, 2);
    book.not_replayed("54: a long line", DRIVE, CASE_B, &line_of('G', 5_000, 1), 43, 1);
    book.not_replayed("54: a long line with an unknown event", DRIVE, CASE_B, &format!("{},2", line_of('G', 5_000, 1)), 42, 1);
    book.not_replayed("55: at the event whose predecessor is missing", DRIVE, CASE_A, "G,0 G,2 G,1", 44, 2);
    book.not_replayed("44: strict pair on one line", DRIVE, CASE_A, "G,0 G,1,2", 44, 2);
    book.not_replayed("44: closed order", DRIVE, CASE_A, "G,2 G,0 G,1", 44, 1);
    book.not_replayed("line by line", DRIVE, CASE_A, "G,1 x", 44, 1);
    book.not_replayed("56: the predecessor never comes", DRIVE, CASE_B, "G,0", 44, 1);
    book.not_replayed("56: the successor never comes", DRIVE, CASE_B, "G,1", 45, 0);
    book.not_replayed("58: nothing arranged", DRIVE, CASE_A, "", 45, 0);
    book.not_replayed("45: lowest", DRIVE, CASE_A, "G,0", 45, 1);
    book.not_replayed("58: a record without events", DRIVE, "C,0,-,- C,2,-,-", "G,0", 42, 1);
    book.not_replayed("mutual pairs parted", MUTUAL, MUTUAL_RECORD, "G,0 G,1", 44, 1);
    book.not_replayed("mutual pairs parted the other way", MUTUAL, MUTUAL_RECORD, "G,1 G,0", 44, 1);
}

fn rows(book: &mut Book) {
    book.replayed("58: no lines", DRIVE, "C,0,-,- C,2,-,-", "", &[BEFORE]);
    book.replayed("58: empty net", "", "", "", &[&[]]);
    book.replayed("weak pair on one line", DRIVE, CASE_B, "G,0,1", &[BEFORE, BOTH]);
    book.replayed("53: any order in a line", DRIVE, CASE_B, "G,1,0", &[BEFORE, BOTH]);
    book.replayed("weak pair on two lines", DRIVE, CASE_B, "G,1 G,0", &[BEFORE, PARKED, BOTH]);
    book.replayed("mutual pairs together", MUTUAL, MUTUAL_RECORD, "G,1,0", &[&[1, 1, 0, 0], &[0, 0, 1, 1]]);
    let all = "P,512 T I,0,0 O,0,0";
    book.replayed("512 tokens in a row", all, &times(512, "C,0,-,-"), "", &[&[512]]);
}

fn levels(book: &mut Book) {
    let early = "P,1 P,0 P,0 P,1 P,0 T T T I,0,0 O,0,1 I,1,1 O,1,2 I,3,2 O,2,4";
    let record = "E,0 E,1 E,2 C,0,-,0 C,3,-,2 C,1,0,1 C,2,1,- C,4,2,-";
    book.built("62: built", early, "S,0 S,1 S,2", record);
    book.arranged("62: as early as can be", early, record, "G,0,2 G,1");
    let lifted = "P,1 P,0 P,0 P,0 P,1 T T T I,0,0 O,0,1 I,1,1 O,1,2 H,3,1 I,4,2 O,2,3";
    let record = "E,0 E,1 E,2 C,0,-,0 C,4,-,2 C,1,0,1 C,2,1,- C,3,2,- B,4,1";
    book.built("63: built", lifted, "S,0 S,1,2", record);
    book.arranged("63: lifted by a weak pair", lifted, record, "G,0 G,1,2");
    book.checked("63: checked", lifted, record, [3, 5, 0], &[(0, 1, 2), (0, 2, 2), (1, 2, 1)]);
    book.arranged("58: nothing to arrange", "", "", "");
    let many: Vec<String> = (0..128).map(|event| format!(",{event}")).collect();
    let conditions: Vec<String> = (0..128).map(|event| format!("C,0,-,{event} C,1,{event},-")).collect();
    let record = format!("{} {}", times(128, "E,0"), conditions.join(" "));
    book.arranged("53: 128 events on a line", "P,128 P,0 T I,0,0 O,0,1", &record, &format!("G{}", many.concat()));
}
