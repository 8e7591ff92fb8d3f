//! Net texts: numbers, lines, limits, arcs. Names begin with the number of the reading that they show.

use super::*;

pub fn add(book: &mut Book) {
    numbers(book);
    lines(book);
    limits(book);
    arcs(book);
}

fn numbers(book: &mut Book) {
    for wrong in ["01", "00", "0032", "10000", "00001", "", "-1", "+1", "-", "1-", "1.", "0x1", "123456789012345678901234567890"] {
        book.no_net("1, 2, 8: no number", &format!("P,{wrong}"), 11, 1);
    }
    book.net("1: 0 is a number", "P,0", 1, 0);
    book.no_net("2: four digits, too many tokens", "P,9999", 12, 1);
    book.no_net("2: four digits, undeclared", "P,1 T I,9999,0", 13, 3);
    book.no_net("2: five digits in an arc", "P,1 T I,10000,0", 11, 3);
    book.no_net("1: leading zero in an arc", "P,1 T I,00,0", 11, 3);
}

fn lines(book: &mut Book) {
    book.net("16: empty net", "", 0, 0);
    book.net("16: places alone", "P,3 P,0", 2, 0);
    book.no_net("3: unended", "P,1~", 11, 1);
    book.no_net("3: unended and past the limit", &format!("{} P,0~", times(32, "P,0")), 11, 33);
    for (wrong, line) in [(&b"\n"[..], 1), (b"P,1\n\n", 2), (b"P,1\n\nT\n", 2), (b"\nP,1\n", 1)] {
        let case = Case::new(Operation::ReadNet, &[wrong]);
        book.add("4: empty line", case, Answer::refuses(11, line), Written::Nothing);
    }
    let foreign: [&[u8]; 11] = [
        b"p,1\n", b"P, 1\n", b" P,1\n", b"P,1 \n", b"\xef\xbb\xbfP,1\n", b"P;1\n", b"\"P\",1\n", b"P,\0\n", b"=\n", b"\xff\n", b"P,1\x0b\n",
    ];
    for wrong in foreign {
        let case = Case::new(Operation::ReadNet, &[wrong]);
        book.add("8: foreign byte", case, Answer::refuses(11, 1), Written::Nothing);
    }
    for wrong in ["P", "P,", "P,1,", "P,1,1", "P,,1", "T,", "T,0", ",P", ",", "PP,1", "I,0", "H,0,0,0", "O,0", "H,0,0,", "I", "1,P", "TT"] {
        book.no_net("fields", &format!("P,1 T {wrong}"), 11, 3);
    }
    for wrong in ["S,0", "E,0", "C,0,-,-", "B,0,0", "A,0,0", "G,0", "Z,0,0,0,0", "X,11,1", "K,0"] {
        book.no_net("9: letter of another text", &format!("P,1 T {wrong}"), 11, 3);
    }
}

fn limits(book: &mut Book) {
    book.net("run only: 512 tokens", "P,512", 1, 0);
    book.no_net("run only: 513 tokens", "P,513", 12, 1);
    book.no_net("run only: a 33rd P", &times(33, "P,0"), 12, 33);
    book.net("32 places", &times(32, "P,16"), 32, 0);
    book.net("11: 512 and 0", "P,512 P,0", 2, 0);
    book.no_net("11: 512 and 1", "P,512 P,1", 12, 2);
    book.no_net("11: 32 places of 17", &times(32, "P,17"), 12, 31);
    book.no_net("11: a 33rd T, though all lack arcs", &times(33, "T"), 12, 33);
    book.no_net("15: 32 T without arcs", &times(32, "T"), 15, 0);
    let joined: Vec<String> = (0..32).map(|t| format!("I,0,{t} O,{t},0")).collect();
    book.net("32 transitions", &format!("P,0 {} {}", times(32, "T"), joined.join(" ")), 1, 32);
    let pairs = (0..32).flat_map(|p| (0..32).map(move |t| format!("I,{p},{t} O,{t},{p} H,{p},{t}")));
    let all = pairs.collect::<Vec<String>>().join(" ");
    book.net("every arc", &format!("{} {} {all}", times(32, "P,0"), times(32, "T")), 32, 32);
    book.no_net("every arc and one again", &format!("{} {} {all} H,31,31", times(32, "P,0"), times(32, "T")), 14, 3137);
}

fn arcs(book: &mut Book) {
    book.no_net("12: declared below", "P,1 I,0,0 T O,0,0", 13, 2);
    book.net("13: any order of lines", "P,1 T I,0,0 P,0 O,0,1", 2, 1);
    book.net("14: I and H between the same", "P,1 P,0 T I,0,0 O,0,1 H,0,0", 2, 1);
    book.net("14: I, O and H between the same", "P,1 T H,0,0 O,0,0 I,0,0", 1, 1);
    book.no_net("14: I again", "P,1 T I,0,0 O,0,0 I,0,0", 14, 5);
    book.no_net("14: O again", "P,1 T I,0,0 O,0,0 O,0,0", 14, 5);
    book.no_net("14: H again", "P,1 T I,0,0 H,0,0 H,0,0", 14, 5);
    book.no_net("14 before 15", "P,1 T H,0,0 H,0,0", 14, 4);
    book.no_net("15: H is no input", "P,1 T H,0,0 O,0,0", 15, 0);
    book.no_net("15: no output", "P,1 T I,0,0", 15, 0);
    book.no_net("15: lowest", "P,1 T T T I,0,0 O,0,0 I,0,2 O,1,0", 15, 1);
    book.no_net("15: after all lines", "P,1 T x", 11, 3);
    book.no_net("15: a later 13 is first", "P,1 T I,1,0", 13, 3);
    book.net("17: can never fire", "P,1 P,0 T I,0,0 O,0,1 H,0,0", 2, 1);
    book.net("18: place 2 first in I", "P,1 P,0 P,0 T I,2,0 O,0,2 H,1,0", 3, 1);
    book.no_net("18: O has the transition first", "P,1 P,0 P,0 T I,2,0 O,2,0", 13, 6);
    book.no_net("18: I has the place first", "P,1 P,0 P,0 T I,0,2", 13, 5);
    book.no_net("18: H has the place first", "P,1 P,0 P,0 T H,0,1", 13, 5);
}
