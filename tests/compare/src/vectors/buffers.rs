//! Lent buffers: too short, exact, longer.

use super::*;

const TEXTS: [(Operation, &[&str], u64); 4] = [
    (Operation::Build, &[DRIVE, "S,0,2"], 20),
    (Operation::Check, &[DRIVE, CASE_B], 30),
    (Operation::Replay, &[DRIVE, CASE_B, "G,0,1"], 40),
    (Operation::Arrange, &[DRIVE, CASE_B], 50),
];

pub fn add(book: &mut Book) {
    for (operation, texts, number) in TEXTS {
        let stated = operation.stated_room();
        for room in [0, 1, stated - 1] {
            book.refused("65: too short", operation, texts, number, 0);
            book.again_with_room("65: too short", room);
        }
        let broken: Vec<&str> = texts.iter().map(|_| "x").collect();
        book.refused("65: judged before the net", operation, &broken, number, 0);
        book.again_with_room("65: judged before the net", stated - 1);
        book.refused("65: no line of the net", operation, &broken, 11, 1);
    }
    longer(book, 1);
    longer(book, 4_000);
}

fn longer(book: &mut Book, more: usize) {
    book.built("65: longer", DRIVE, "S,0,2", CASE_B);
    book.again_with_room("65: longer", Operation::Build.stated_room() + more);
    book.checked("65: longer", DRIVE, CASE_B, [2, 4, 0], &[(1, 0, 1)]);
    book.again_with_room("65: longer", Operation::Check.stated_room() + more);
    book.replayed("65: longer", DRIVE, CASE_B, "G,0,1", &[&[1, 0, 1, 0, 0], &[0, 1, 0, 1, 0]]);
    book.again_with_room("65: longer", Operation::Replay.stated_room() + more);
    book.arranged("65: longer", DRIVE, CASE_B, "G,0,1");
    book.again_with_room("65: longer", Operation::Arrange.stated_room() + more);
}
