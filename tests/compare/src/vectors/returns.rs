//! Carriage returns, request 2026-02: either line end, mixed or not, byte 13 elsewhere, the line shown, what is written.

use super::*;

/// A net with both line ends, and the same with byte 10 alone.
const MIXED: &[u8] = b"P,1\r\nP,0\nT\r\nI,0,0\nO,0,1\r\n";
const PLAIN: &[u8] = b"P,1\nP,0\nT\nI,0,0\nO,0,1\n";
/// The record of `S,0` under it.
const RECORD: &[u8] = b"E,0\nC,0,-,0\nC,1,0,-\n";

pub fn add(book: &mut Book) {
    nets(book);
    logs(book);
    records(book);
    arrangements(book);
    shown(book);
    no_lines(book);
    parting(book);
    printed(book);
    lengths(book);
}

fn refused(book: &mut Book, name: &str, operation: Operation, texts: &[&[u8]], number: u64, spot: u64) {
    book.add(name, Case::new(operation, texts), Answer::refuses(number, spot), Written::Nothing);
}

fn nets(book: &mut Book) {
    book.net("13 10", b"P,1\r\n", 1, 0);
    book.net("13 10 and 10", MIXED.to_vec(), 2, 1);
    book.net("10 and 13 10", b"P,1\nP,0\r\n", 2, 0);
    let wrong: [(&[u8], u64); 21] = [
        (b"P,1\r", 1), (b"P,1\r\r\n", 1), (b"P,1\r\r\r\n", 1), (b"P\r,1\n", 1), (b"P,\r1\n", 1), (b"P,\r\n", 1), (b"P\r\n,1\r\n", 1), (b"\rP,1\n", 1), (b"P,1\rP,1\n", 1),
        (b"P,1\rP,1\r", 1), (b"P,1\n\r", 2), (b"P,1\n\rP,1\n", 2), (b"P,1\r\n\rP,1\r\n", 2), (b"P,1\r\n\r\n", 2), (b"\r\n", 1), (b"\r", 1), (b"\r\r\n", 1), (b"\n\r\n", 1),
        (b"P,1\r\nP,1", 2), (b"P,1\r\nT\r", 2), (b"P,1\nP,1\r\r\nx\n", 2),
    ];
    for (net, line) in wrong {
        refused(book, "byte 13 elsewhere", Operation::ReadNet, &[net], 11, line);
    }
    refused(book, "other refusals with 13 10", Operation::ReadNet, &[b"P,512\r\nP,1\r\n"], 12, 2);
    refused(book, "13: undeclared", Operation::ReadNet, &[b"P,1\r\nT\r\nI,1,0\r\n"], 13, 3);
    refused(book, "14: repeated", Operation::ReadNet, &[b"P,1\r\nT\nI,0,0\r\nI,0,0\n"], 14, 4);
    refused(book, "15: a transition", Operation::ReadNet, &[b"P,1\r\nT\r\nI,0,0\r\n"], 15, 0);
    refused(book, "51: read and consumed", Operation::ReadNet, &[b"P,1\r\nT\nI,0,0\r\nR,0,0\r\n"], 51, 4);
    refused(book, "12 before the malformed line below", Operation::ReadNet, &[b"P,513\r\nT\r"], 12, 1);
    refused(book, "an unended line past the limit", Operation::ReadNet, &[&[&b"P,0\r\n".repeat(32)[..], b"P,0\r"].concat()], 11, 33);
}

fn logs(book: &mut Book) {
    for log in [&b"S,0\r\n"[..], b"S,0\n"] {
        book.built("either ending", MIXED.to_vec(), log.to_vec(), RECORD.to_vec());
        book.built("a plain net", PLAIN.to_vec(), log.to_vec(), RECORD.to_vec());
    }
    for log in [&b"S,0\r"[..], b"S,0\r\r\n", b"S\r,0\n", b"S,\r0\n", b"S,\r\n", b"S\r\n", b"\rS,0\r\n", b"S,0\rS,0\n", b"\r\n", b"\r", b"S\r\n,0\n"] {
        refused(book, "byte 13 elsewhere in a log", Operation::Build, &[MIXED, log], 21, 1);
    }
    refused(book, "13 10 alone", Operation::Build, &[MIXED, b"S,0\r\n\r\n"], 21, 2);
    refused(book, "10 13", Operation::Build, &[MIXED, b"S,0\n\r"], 21, 2);
    refused(book, "22 with 13 10", Operation::Build, &[MIXED, b"S,0\r\nS,1\r\n"], 22, 2);
    refused(book, "24 with 13 10", Operation::Build, &[MIXED, b"S,0\r\nS,0\r\n"], 24, 2);
    refused(book, "24 before the cut line below", Operation::Build, &[PLAIN, b"S,0\nS,0\r\nS,0\r"], 24, 2);
    refused(book, "the net's line first", Operation::Build, &[b"P,1\r\nT\r", b"\r"], 11, 2);
}

fn records(book: &mut Book) {
    let table = [2, 4, 0];
    let drive = Text::from(DRIVE).0;
    book.checked("either ending in a record", drive.clone(), b"E,0\r\nE,2\nC,0,-,0\r\nC,2,-,1\r\nC,1,0,-\nC,3,1,-\r\nB,2,1\r\n", table, &[(1, 0, 1)]);
    book.arranged("byte 10 alone is written", MIXED.to_vec(), b"E,0\r\nC,0,-,0\r\nC,1,0,-\r\n", "G,0");
    let wrong: [(&[u8], u64); 11] = [
        (b"E,0\r", 1), (b"E,0\r\r\n", 1), (b"E\r,0\n", 1), (b"\r\n", 1), (b"E,0\r\n\r\n", 2), (b"E,0\nC,0,-,-\r\r\n", 2), (b"E,0\nC,0,-\r,0\n", 2), (b"E,0\nC,0,\r-,0\n", 2),
        (b"E,0\nC,0,-,0\r", 2), (b"E,0\nC,0,-,0\r\nB,0,0\r", 3), (b"E,0\r\nC,0,-,0\r\n\rC,1,0,-\r\n", 3),
    ];
    for (record, line) in wrong {
        refused(book, "byte 13 elsewhere in a record", Operation::Check, &[MIXED, record], 31, line);
        refused(book, "byte 13 elsewhere, arranging", Operation::Arrange, &[MIXED, record], 31, line);
        refused(book, "byte 13 elsewhere, replaying", Operation::Replay, &[MIXED, record, b"G,0\r\n"], 31, line);
    }
    refused(book, "33 with 13 10", Operation::Check, &[MIXED, b"E,0\r\nC,2,-,-\r\n"], 33, 2);
    refused(book, "35 with 13 10", Operation::Check, &[MIXED, b"E,0\r\n"], 35, 0);
}

fn arrangements(book: &mut Book) {
    let rows: [&[u16]; 2] = [&[1, 0], &[0, 1]];
    book.replayed("13 10 in an arrangement", MIXED.to_vec(), RECORD.to_vec(), b"G,0\r\n", &rows);
    let drive = Text::from(DRIVE).0;
    let record = Text::from(CASE_B).0;
    let rows: [&[u16]; 3] = [&[1, 0, 1, 0, 0], &[1, 0, 0, 1, 0], &[0, 1, 0, 1, 0]];
    book.replayed("either ending in an arrangement", drive.clone(), record.clone(), b"G,1\r\nG,0\n", &rows);
    for wrong in [&b"G,0\r"[..], b"G,0\r\r\n", b"G\r,0\n", b"G,\r0\n", b"\r\n", b"\r", b"G\r\n", b"\rG,0\r\n", b"G,0\r,1\r\n"] {
        refused(book, "byte 13 elsewhere in an arrangement", Operation::Replay, &[&drive, &record, wrong], 41, 1);
    }
    refused(book, "13 10 alone in an arrangement", Operation::Replay, &[&drive, &record, b"G,1\r\n\r\nG,0\r\n"], 41, 2);
    refused(book, "44 with 13 10", Operation::Replay, &[&drive, &record, b"G,0\r\nG,1\r\n"], 44, 1);
    refused(book, "43 with 13 10", Operation::Replay, &[&drive, &record, b"G,1\r\nG,1\r\n"], 43, 2);
    refused(book, "45 with 13 10", Operation::Replay, &[&drive, &record, b"G,1\r\n"], 45, 0);
}

/// Where a line starts counts every byte above it; what is shown has no ending.
fn shown(book: &mut Book) {
    let parts: [(&[u8], u64, usize, usize); 19] = [
        (b"P,1\r\nP,2\n", 1, 0, 3), (b"P,1\r\nP,2\n", 2, 5, 3), (b"P,1\nP,2\r\n", 2, 4, 3), (b"a\r\nb\r\ncd\r\n", 3, 6, 2), (b"a\r\nb\ncd\r", 3, 5, 3), (b"x\r\r\n", 1, 0, 2), (b"x\r\r\r\ny", 1, 0, 3),
        (b"x\r\r\r\ny", 2, 5, 1), (b"\rx\ry\r\n", 1, 0, 4), (b"x\r", 1, 0, 2), (b"a\nx\r", 2, 2, 2), (b"\r\n", 1, 0, 0), (b"\r\n\r\n", 2, 2, 0), (b"\r\r\n", 1, 0, 1), (b"\r", 1, 0, 1),
        (b"a\n\rb\n\r", 2, 2, 2), (b"a\n\rb\n\r", 3, 5, 1), (b"\n\r\n", 2, 1, 0), (b"a\rb\r", 1, 0, 4),
    ];
    for (text, line, start, length) in parts {
        book.line("shown without its ending", [text.to_vec(), b"-\r\n-\r\n-\r\n".to_vec()], (0, line), start, length);
        book.line("the same of the second text", [b"-\n-\r\n".to_vec(), text.to_vec()], (1, line), start, length);
    }
    book.line("any bytes", [b"\xff\0 \r\n=".to_vec(), Vec::new()], (0, 1), 0, 3);
    book.line("any bytes, unended", [b"\xff\0 \r\n=".to_vec(), Vec::new()], (0, 2), 5, 1);
}

fn no_lines(book: &mut Book) {
    for choice in [0, 1] {
        let texts = || [b"a\r\n".to_vec(), b"a\r\n".to_vec()];
        book.no_line("nothing behind the last line end", texts(), (choice, 2));
        book.no_line("byte 13 ends no line", [b"a\rb\r".to_vec(), b"a\rb\r".to_vec()], (choice, 2));
        book.no_line("line 0", texts(), (choice, 0));
    }
    book.no_line("no such choice", [b"a\r\n".to_vec(), b"a\r\n".to_vec()], (2, 1));
}

fn parting(book: &mut Book) {
    book.printed("= 13 10", b"=\r\n", "Z,0,0,0,0");
    for input in [&b"=\r"[..], b"=\r\r\n", b"\r=\n", b"\r=\r\n", b"=\rS,0\n", b"x\r=\n", b"x\r=\r\n", b"=\r=\n", b"P,1\r\n=\r", b"P,1\r\n=", b"\r", b"\r\n", b"=\r,\n"] {
        book.printed("no = line", input.to_vec(), "X,10,0");
    }
    book.printed("no = line, then one", b"=\r\r\n=\r\n", "X,11,1");
    book.printed("an empty line above", b"\r\n=\r\n", "X,11,1");
    book.printed("an empty line below", b"=\r\n\r\n", "X,21,1");
    book.printed("10 13 behind =", b"=\n\r", "X,21,1");
    book.printed("10 13 10 behind =", b"=\n\r\n", "X,21,1");
    book.printed("a second =", b"=\r\n=\r\n", "X,21,1");
    book.printed("the first =, whichever ending", b"=\n=\r\n", "X,21,1");
}

fn printed(book: &mut Book) {
    let record = "E,0 C,0,-,0 C,1,0,- Z,1,2,0,1";
    for parting in [&b"=\n"[..], b"=\r\n"] {
        for log in [&b"S,0\n"[..], b"S,0\r\n"] {
            for net in [PLAIN, MIXED] {
                book.printed("either ending printed", [net, parting, log].concat(), record);
            }
        }
        for (log, printed) in [(&b"S,0\r"[..], "X,21,1"), (b"S,0\r\nS,0\r\n", "X,24,2"), (b"S,0\r\r\n", "X,21,1"), (b"S,0\r\n\r", "X,21,2")] {
            book.printed("refused in the log", [MIXED, parting, log].concat(), printed);
        }
        book.printed("refused in the net", [b"P,1\r\nP\r,1\r\n", parting, b"S,0\r\n"].concat(), "X,11,2");
        book.printed("15 with either ending", [b"P,1\r\nT\r\n", parting].concat(), "X,15,0");
    }
}

/// The bytes 13 count in the 65,536.
fn lengths(book: &mut Book) {
    let long = |length: usize, end: &[u8]| [&vec![b'x'; length - end.len()], end].concat();
    for end in [&b"\r\n=\r\n"[..], b"\n=\r\n", b"\r\n=\n"] {
        for (length, printed) in [(65_535, "X,11,1"), (65_536, "X,11,1"), (65_537, "X,10,0"), (65_540, "X,10,0")] {
            book.printed("length of the input", long(length, end), printed);
        }
    }
    let net = |line: &[u8], count: usize| [&line.repeat(count)[..], b"=\n"].concat();
    book.printed("16,383 lines with 10", net(b"P,0\n", 16_383), "X,12,33");
    book.printed("the same with 13 10, which is too long", net(b"P,0\r\n", 16_383), "X,10,0");
    book.printed("as many with 13 10 as there may be", net(b"P,0\r\n", 13_106), "X,12,33");
    book.printed("one more", net(b"P,0\r\n", 13_107), "X,10,0");
    book.printed("65,536 bytes, nearly all 13", [&b"=\n"[..], &vec![13; 65_533], b"\n"].concat(), "X,21,1");
    book.printed("65,537 bytes, nearly all 13", [&b"=\n"[..], &vec![13; 65_534], b"\n"].concat(), "X,10,0");
}
