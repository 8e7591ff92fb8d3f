//! The refused line and the program.

use super::*;

pub fn add(book: &mut Book) {
    lines(book);
    no_lines(book);
    parting(book);
    printing(book);
    lengths(book);
}

fn lines(book: &mut Book) {
    book.line("the net's first line", ["P,1 x", "S,0"], (0, 1), 0, 3);
    book.line("the net's second line", ["P,1 x", "S,0"], (0, 2), 4, 1);
    book.line("the second text's line", ["P,1", "S,0 S,12 S,2"], (1, 2), 4, 4);
    book.line("69: unended last piece", ["P,1", "S,0 S,1~"], (1, 2), 4, 3);
    book.line("69: unended only piece", ["P,~", ""], (0, 1), 0, 2);
    book.line("69: empty line", [b"\n".to_vec(), Vec::new()], (0, 1), 0, 0);
    book.line("69: empty line between", [Vec::new(), b"ab\n\ncd".to_vec()], (1, 2), 3, 0);
    book.line("any bytes", [b"\xff\0 \t\n=".to_vec(), Vec::new()], (0, 1), 0, 4);
    book.line("any bytes, unended", [b"\xff\0 \t\n=".to_vec(), Vec::new()], (0, 2), 5, 1);
}

fn no_lines(book: &mut Book) {
    for choice in [0, 1] {
        book.no_line("67: line 0", ["P,1", "S,0"], (choice, 0));
        book.no_line("68: line past the last", ["P,1", "S,0"], (choice, 2));
        book.no_line("69: nothing behind the last line end", [b"a\n".to_vec(), b"a\n".to_vec()], (choice, 2));
        book.no_line("68: empty text", ["", ""], (choice, 1));
        book.no_line("a huge line number", ["P,1", "S,0"], (choice, u64::MAX));
        book.no_line("a line number that 32 bits would cut", ["P,1", "S,0"], (choice, (1 << 32) + 1));
    }
    for choice in [2, 3, 128, 255] {
        book.no_line("67: no such choice", ["P,1", "S,0"], (choice, 1));
        book.no_line("67: no such choice, line 0", ["P,1", "S,0"], (choice, 0));
    }
}

fn parting(book: &mut Book) {
    book.printed("71: unended", "=~", "X,10,0");
    book.printed("71: ended", "=", "Z,0,0,0,0");
    book.printed("no input", "", "X,10,0");
    book.printed("no = line", "P,1 S,0", "X,10,0");
    book.printed("72: the first counts", &format!("{DRIVE} = ="), "X,21,1");
    book.printed("73: lines of the log", &format!("{DRIVE} = S,0 S,0"), "X,24,2");
    for no_parting in [&b"==\n"[..], b"=,\n", b" =\n", b"= \n", b"P,1\n=", b"P,1=\n"] {
        book.printed("no = line", no_parting.to_vec(), "X,10,0");
    }
    book.printed("an empty line first", b"\n=\n".to_vec(), "X,11,1");
    book.printed("no second = line needed", "x = = =", "X,11,1");
}

fn printing(book: &mut Book) {
    book.printed("75: X alone", &format!("{DRIVE} = S,0 S,9"), "X,22,2");
    book.printed("net's 15", "P,1 T = S,0", "X,15,0");
    book.printed("net's line", "P,1 P,999 =", "X,12,2");
    book.printed("unended log line", &format!("{DRIVE} = S,0~"), "X,21,1");
    book.printed("conditions alone", "P,2 =", "C,0,-,- C,0,-,- Z,0,2,0,0");
    book.printed("mutual pairs", &format!("{MUTUAL} = S,0,1"), &format!("{MUTUAL_RECORD} Z,2,4,0,1"));
    let conditions: Vec<String> = (0..128).map(|e| format!("C,0,{e},{}", if e < 127 { (e + 1).to_string() } else { "-".to_string() })).collect();
    let chain = format!("{} C,0,-,0 {} Z,128,129,0,128", times(128, "E,0"), conditions.join(" "));
    book.printed("128 lines", &format!("{LOOP} = {}", times(128, "S,0")), &chain);
}

fn lengths(book: &mut Book) {
    for (length, printed) in [(65_535, "X,11,1"), (65_536, "X,11,1"), (65_537, "X,10,0"), (70_000, "X,10,0")] {
        let net = vec![b'x'; length - 3];
        book.printed("74: length of the input", [&net[..], b"\n=\n"].concat(), printed);
    }
    let early = |length: usize| [&b"=\nS,0"[..], &b",0".repeat(40_000)].concat()[..length - 1].to_vec();
    book.printed("74: a log line that fills the input", [&early(65_536)[..], b"\n"].concat(), "X,22,1");
    book.printed("74: a log line one longer", [&early(65_537)[..], b"\n"].concat(), "X,10,0");
    book.printed("74: too long, though parted early", early(65_540), "X,10,0");
}
