//! The marked cases a to k of document 01, as printed there; but 2026-04 has changed b and f, which had one independent pair each
//! and now have none.

use super::*;

pub fn add(book: &mut Book) {
    runs(book);
    proposals(book);
    replays(book);
}

fn input(log: &str) -> String {
    format!("{DRIVE} = {log}")
}

fn runs(book: &mut Book) {
    book.printed("a", &input("S,0 S,1 S,2"), &format!("{CASE_A} Z,3,5,0,3"));
    book.built("a built", DRIVE, "S,0 S,1 S,2", CASE_A);
    book.checked("a checked", DRIVE, CASE_A, [3, 5, 0], &[(0, 1, 2), (0, 2, 2), (1, 2, 2)]);
    book.arranged("a arranged", DRIVE, CASE_A, "G,0 G,1 G,2");
    book.built("b", DRIVE, "S,0,2", CASE_B);
    book.printed("b printed", &input("S,0,2"), &format!("{CASE_B} Z,2,4,0,1"));
    book.checked("b checked", DRIVE, CASE_B, [2, 4, 0], &[(1, 0, 1)]);
    book.arranged("b arranged", DRIVE, CASE_B, "G,0,1");
    book.not_built("c", DRIVE, "S,0 S,2", 25, 2);
    book.printed("c printed", &input("S,0 S,2"), "X,25,2");
    book.not_built("d", DRIVE, "S,0,0", 24, 1);
    book.printed("d printed", &input("S,0,0"), "X,24,1");
    book.built("e", DRIVE, "", "C,0,-,- C,2,-,-");
    book.arranged("e arranged", DRIVE, "C,0,-,- C,2,-,-", "");
    book.printed("e printed", &format!("{DRIVE} ="), "C,0,-,- C,2,-,- Z,0,2,0,0");
}

fn proposals(book: &mut Book) {
    let f = format!("{CASE_A_UNMARKED} B,2,2");
    book.checked("f", DRIVE, &f, [3, 5, 0], &[(0, 1, 2), (2, 1, 2), (2, 0, 1)]);
    book.arranged("f arranged", DRIVE, &f, "G,0,2 G,1");
    book.no_record("g", DRIVE, CASE_A_UNMARKED, 37, 2);
    book.no_record("h", DRIVE, "E,0 E,2 C,0,-,0 C,2,-,1 C,1,0,- C,3,1,- A,2,1", 38, 1);
    book.no_record("k", "P,1 P,0 T I,0,0 O,0,1 H,0,0", "E,0 C,0,-,0 C,1,0,- A,0,0", 39, 0);
}

fn replays(book: &mut Book) {
    book.not_replayed("i", DRIVE, CASE_B, "G,0 G,1", 44, 1);
    let rows: [&[u16]; 3] = [&[1, 0, 1, 0, 0], &[1, 0, 0, 1, 0], &[0, 1, 0, 1, 0]];
    book.replayed("j", DRIVE, CASE_B, "G,1 G,0", &rows);
}
