//! Energy in the hold-up capacitor, request 2026-05: usable energy, draw and what is left, and the refusals 52 and 53. The
//! energies are written out in decimals; each names its f64.

use super::*;

/// The record of no event of `LOOP`, and of one.
const STILL: &str = "C,0,-,-";
const ONCE: &str = "E,0 C,0,-,0 C,0,0,-";
/// For the drive net: 196,350 µJ between 12 V and 5 V; a write and a flush as loads, the park as a pulse.
const HOLD_UP: &str = "K,3300,12000,5000 W,2500,8 W,4500,24 J,52000";

pub fn add(book: &mut Book) {
    drive(book);
    usable(book);
    draws(book);
    left(book);
    ties(book);
    zeros(book);
    ranges(book);
    digits(book);
    malformed(book);
    letters(book);
    counts(book);
    order(book);
    endings(book);
    shown(book);
}

/// A record of so many events of `LOOP`, one after the other.
fn rounds(events: usize) -> String {
    let end = |event: usize| if event < events { event.to_string() } else { "-".to_string() };
    let made = (0..events).map(|event| format!("C,0,{event},{}", end(event + 1)));
    let lines = std::iter::repeat_n("E,0".to_string(), events).chain([format!("C,0,-,{}", end(0))]);
    lines.chain(made).collect::<Vec<String>>().join(" ")
}

impl Book {
    /// Refused for an energy text, byte by byte, of one event of `LOOP`.
    fn refused_bytes(&mut self, name: &str, energy: &[u8], number: u64, spot: u64) {
        let case = Case::new(Operation::Energy, &[&Text::from(LOOP).0, &Text::from(ONCE).0, energy]);
        self.add(name, case, Answer::refuses(number, spot), Written::Nothing);
    }
}

fn drive(book: &mut Book) {
    book.energies("case a", DRIVE, CASE_A, HOLD_UP, [196_350.0, 180_000.0, 16_350.0]);
    book.energies("case b: no flush", DRIVE, CASE_B, HOLD_UP, [196_350.0, 72_000.0, 124_350.0]);
    book.energies("an aged capacitor", DRIVE, CASE_A, "K,2640,12000,5000 W,2500,8 W,4500,24 J,52000", [157_080.0, 180_000.0, -22_920.0]);
    book.energies("each transition by its own line", DRIVE, CASE_A, "K,2,1000,0 J,1 J,20 W,3,100", [1.0, 321.0, -320.0]);
    book.energies("the second one's line", DRIVE, CASE_B, "K,2,1000,0 J,1 J,20 W,3,100", [1.0, 301.0, -300.0]);
    let reading = "P,1 P,0 P,1 P,0 T T I,0,0 O,0,1 R,2,0 I,2,1 O,1,3";
    book.energies("a reader", reading, "E,0 E,1 C,0,-,0 C,2,-,1 C,1,0,- C,3,1,- R,1,0", "K,2,1000,0 J,1 J,2", [1.0, 3.0, -2.0]);
    book.energies("a weak loop", MUTUAL, MUTUAL_RECORD, "K,2,1000,0 J,1 J,2", [1.0, 3.0, -2.0]);
}

/// Capacitance by the difference of the squares, by a half and by a millionth: rounded once.
fn usable(book: &mut Book) {
    for (capacitor, energy) in [
        ("K,1,1,0", 0.0000005),
        ("K,2,1,0", 0.000001),
        ("K,3,1,0", 0.0000015),
        ("K,1,2,1", 0.0000015),
        ("K,7,3,2", 0.0000175),
        ("K,24,325,75", 1.2),
        ("K,1,60000,0", 1_800.0),
        ("K,1,60000,59999", 0.0599995),
        ("K,1000000,60000,0", 1_800_000_000.0),
        ("K,1000000,60000,59999", 59_999.5),
        ("K,1000000,1,0", 0.5),
        ("K,999983,59999,1", 1_799_909_401.02),
        ("K,999999,59999,58888", 66_041_662.4582715),
        ("K,4700,13800,6200", 357_200.0),
        ("K,680,33333,3333", 373_993.2),
    ] {
        book.energies("usable energy", LOOP, STILL, &format!("{capacitor} J,0"), [energy, 0.0, energy]);
    }
}

fn draws(book: &mut Book) {
    for (line, energy) in [
        ("J,0", 0.0),
        ("J,1", 1.0),
        ("J,1000000", 1e6),
        ("W,0,1000000", 0.0),
        ("W,1000000,0", 0.0),
        ("W,3,7", 21.0),
        ("W,1000000,1000000", 1e12),
        ("W,999999,999999", 999_998_000_001.0),
    ] {
        for events in [0, 1, 2, 3, 127, 128] {
            let drawn = events as f64 * energy;
            book.energies("draw of the events", LOOP, &rounds(events), &format!("K,1,0,0 {line}"), [0.0, drawn, 0.0 - drawn]);
        }
    }
    // Whole numbers past the 24 digits of an f32.
    book.energies("a sum past 2^24", LOOP, &rounds(17), "K,1,0,0 J,999999", [0.0, 16_999_983.0, -16_999_983.0]);
    book.energies("a product past 2^24", LOOP, ONCE, "K,1,0,0 W,4097,4097", [0.0, 16_785_409.0, -16_785_409.0]);
}

/// The difference of the two f64, which is another than the exact one.
fn left(book: &mut Book) {
    book.energies("the f64 of 1.2, less 1", LOOP, ONCE, "K,24,325,75 J,1", [1.2, 1.0, 0.19999999999999996]);
    book.energies("the f64 of 1.1, less 1", LOOP, ONCE, "K,22,325,75 J,1", [1.1, 1.0, 0.10000000000000009]);
    book.energies("exact below 0", LOOP, ONCE, "K,24,325,75 J,2", [1.2, 2.0, -0.8]);
    book.energies("one less than enough", LOOP, ONCE, "K,2,1000,0 J,2", [1.0, 2.0, -1.0]);
    book.energies("one more than enough", LOOP, ONCE, "K,4,1000,0 J,1", [2.0, 1.0, 1.0]);
    book.energies("half a microjoule short", LOOP, ONCE, "K,1,1000,0 J,1", [0.5, 1.0, -0.5]);
    book.energies("the most that can lack", LOOP, &rounds(128), "K,1,0,0 W,1000000,1000000", [0.0, 128e12, -128e12]);
    book.energies("the least beside the most", LOOP, &rounds(128), "K,1,1,0 W,1000000,1000000", [0.0000005, 128e12, -128e12]);
}

/// An f64 around 128 * 10^12 stands for a multiple of 1/64; usable energies of an odd number of 1/128 lie between two.
fn ties(book: &mut Book) {
    for (capacitance, usable, left) in [
        (15_624, 0.007812, -128e12),
        (15_625, 0.0078125, -128e12),
        (15_626, 0.007813, -127_999_999_999_999.984375),
        (31_250, 0.015625, -127_999_999_999_999.984375),
        (46_874, 0.023437, -127_999_999_999_999.984375),
        (46_875, 0.0234375, -127_999_999_999_999.96875),
        (46_876, 0.023438, -127_999_999_999_999.96875),
        (78_125, 0.0390625, -127_999_999_999_999.96875),
        (109_375, 0.0546875, -127_999_999_999_999.9375),
    ] {
        book.energies("a tie, or beside one", LOOP, &rounds(128), &format!("K,{capacitance},1,0 W,1000000,1000000"), [usable, 128e12, left]);
    }
}

/// No energy is minus zero.
fn zeros(book: &mut Book) {
    for capacitor in ["K,1,0,0", "K,1000000,60000,60000", "K,33,1,1", "K,1000000,0,0"] {
        book.energies("full is cutoff", LOOP, ONCE, &format!("{capacitor} J,0"), [0.0, 0.0, 0.0]);
        book.energies("full is cutoff, no events", LOOP, STILL, &format!("{capacitor} J,5"), [0.0, 0.0, 0.0]);
        book.energies("full is cutoff, and a draw", LOOP, ONCE, &format!("{capacitor} J,5"), [0.0, 5.0, -5.0]);
    }
    book.energies("just enough", LOOP, ONCE, "K,2,1000,0 J,1", [1.0, 1.0, 0.0]);
    book.energies("just enough, by loads", LOOP, &rounds(9), "K,18,10000,0 W,10,10", [900.0, 900.0, 0.0]);
    book.energies("no transitions and no events", "P,1", "C,0,-,-", "K,2,1000,0", [1.0, 0.0, 1.0]);
    book.energies("nothing at all", "", "", "K,1,0,0", [0.0, 0.0, 0.0]);
}

fn ranges(book: &mut Book) {
    for right in ["K,1,60000,60000 J,0", "K,1000000,0,0 J,0", "K,1,1,1 W,0,0", "K,1,0,0 W,0,1000000"] {
        book.energies("at the ends of the ranges", LOOP, ONCE, right, [0.0, 0.0, 0.0]);
    }
    let capacitances = ["K,0,1,0", "K,0,0,0", "K,1000001,1,0", "K,9999999,1,0"];
    let voltages = ["K,1,60001,0", "K,1,60001,60001", "K,1,60000,60001", "K,1,0,1", "K,1,5000,5001", "K,1,9999999,0", "K,1,0,9999999", "K,1,65536,0", "K,65536,65537,1"];
    for wrong in capacitances.iter().chain(&voltages) {
        book.no_energies("capacitor out of range", LOOP, ONCE, &format!("{wrong} J,0"), 52, 1);
    }
    for wrong in ["J,1000001", "J,9999999", "W,1000001,0", "W,0,1000001", "W,9999999,9999999", "W,1000001,1000001"] {
        book.no_energies("load out of range", LOOP, ONCE, &format!("K,1,1,0 {wrong}"), 52, 2);
        book.no_energies("load out of range, of the last transition", DRIVE, CASE_B, &format!("K,1,1,0 J,1 W,1,1 {wrong}"), 52, 4);
    }
}

/// Up to seven digits here, four in the other texts.
fn digits(book: &mut Book) {
    book.energies("one to five digits", DRIVE, CASE_A, "K,10000,60000,6 J,99999 W,12345,1 J,9", [17_999_999.82, 112_353.0, 17_887_646.82]);
    book.energies("six and seven digits", DRIVE, CASE_A, "K,1000000,600,60 J,1000000 W,100000,1 J,123456", [178_200.0, 1_223_456.0, -1_045_256.0]);
    for wrong in ["10000000", "00000001", "0000001", "01", "00", "000000", "0999999", "01000000", "18446744073709551616", "18446744073709551617", "4294967296", "4294967297"] {
        book.no_energies("no number", LOOP, ONCE, &format!("K,{wrong},1,0 J,0"), 52, 1);
        book.no_energies("no number", LOOP, ONCE, &format!("K,1,{wrong},0 J,0"), 52, 1);
        book.no_energies("no number", LOOP, ONCE, &format!("K,1,1,{wrong} J,0"), 52, 1);
        for line in [format!("J,{wrong}"), format!("W,{wrong},1"), format!("W,1,{wrong}")] {
            book.no_energies("no number", LOOP, ONCE, &format!("K,1,1,0 {line}"), 52, 2);
        }
    }
    book.no_record("five digits in a record", LOOP, "E,0 C,0,-,0 C,0,0,- B,10000,0", 31, 4);
    book.no_record("seven digits in a record", LOOP, "E,0000000", 31, 1);
    book.no_net("five digits in a net", "P,10000", 11, 1);
    book.no_net("seven digits in a net", "P,1000000", 11, 1);
}

fn malformed(book: &mut Book) {
    let figures = ["", ",", ",1", ",1,", ",1,1", ",1,1,", ",1,1,0,", ",1,1,0,0", ",,1,0", ",1,,0", ",-,1,0", ",1,-,0", ",1,1,-", ",+1,1,0", ",1.0,1,0", ",1,1,0x", "1,1,0", ",1,1;0", ",1,1,0~"];
    for wrong in figures {
        book.no_energies("malformed K", "P,1", "C,0,-,-", &format!("K{wrong}"), 52, 1);
    }
    let pulses = ["J", "J,", "J,,", "J,1,", "J,1,1", "J,-", "J,+1", "J,1.5", "J,1e3", "J1", "j,1", "J,1x", "J,1~", "JJ,1", "JW,1,1"];
    let loads = ["W", "W,", "W,1", "W,1,", "W,,1", "W,1,1,", "W,1,1,1", "W,-,1", "W,1,-", "W,1,2.5", "w,1,1", "W,1;1", "W1,1", "W,1,1~"];
    for wrong in pulses.iter().chain(&loads) {
        book.no_energies("malformed J or W", LOOP, ONCE, &format!("K,1,1,0 {wrong}"), 52, 2);
        book.no_energies("malformed, the last of three", DRIVE, CASE_B, &format!("K,1,1,0 J,0 W,0,0 {wrong}"), 52, 4);
    }
    for (wrong, spot) in [
        (&b"\n"[..], 1),
        (b"\nK,1,1,0\nJ,0\n", 1),
        (b" K,1,1,0\nJ,0\n", 1),
        (b"K,1,1,0 \nJ,0\n", 1),
        (b"K,1,1,0\n\n", 2),
        (b"K,1,1,0\n\nJ,0\n", 2),
        (b"K,1,1,0\n J,0\n", 2),
        (b"K,1,1,0\nJ, 0\n", 2),
        (b"K,1,1,0\nJ,0 \n", 2),
        (b"K,1,1,0\nJ,0\n\n", 3),
        (b"K,1,1,0\nJ,0\n\0", 3),
    ] {
        book.refused_bytes("malformed, by bytes", wrong, 52, spot);
    }
}

/// `K` on line 1, `J` or `W` on any other.
fn letters(book: &mut Book) {
    for wrong in ["J,1", "W,1,1", "J,1,1,0", "W,1,1,0", "k,1,1,0", "P,1", "E,0", "C,0,-,-", "R,0,0", "L,1,1,0"] {
        book.no_energies("wrong letter on line 1", LOOP, ONCE, &format!("{wrong} J,0"), 52, 1);
        book.no_energies("wrong letter on the only line", "P,1", "C,0,-,-", wrong, 52, 1);
    }
    for wrong in ["K,1,1,0", "K,1", "K,1,1", "S,0", "E,0", "P,1", "T", "G,0", "R,0,0", "V,1,1", "I,1"] {
        book.no_energies("wrong letter on line 2", LOOP, ONCE, &format!("K,1,1,0 {wrong}"), 52, 2);
        book.no_energies("wrong letter on line 3", DRIVE, CASE_B, &format!("K,1,1,0 J,0 {wrong} J,0"), 52, 3);
    }
    for (operation, texts, number) in [
        (Operation::ReadNet, &["K,1"][..], 11),
        (Operation::ReadNet, &["J,1"], 11),
        (Operation::ReadNet, &["W,0,0"], 11),
        (Operation::Build, &[LOOP, "J,0"], 21),
        (Operation::Check, &[LOOP, "J,0"], 31),
        (Operation::Check, &[LOOP, "W,0,0"], 31),
        (Operation::Replay, &[LOOP, STILL, "K,0"], 41),
    ] {
        book.refused("malformed in the other texts", operation, texts, number, 1);
    }
}

/// 53: other than transitions plus one, with nothing else wrong.
fn counts(book: &mut Book) {
    for (net, record, wrong) in [
        (LOOP, ONCE, ""),
        (LOOP, ONCE, "K,1,1,0"),
        (LOOP, ONCE, "K,1,1,0 J,0 J,0"),
        (DRIVE, CASE_A, ""),
        (DRIVE, CASE_A, "K,1,1,0 J,0 J,0"),
        (DRIVE, CASE_A, "K,1,1,0 J,0 J,0 J,0 J,0"),
        ("P,1", "C,0,-,-", ""),
        ("P,1", "C,0,-,-", "K,1,1,0 J,0"),
        ("", "", ""),
    ] {
        book.no_energies("53", net, record, wrong, 53, 0);
    }
    for lines in [32, 33, 34, 65, 256, 257, 300] {
        book.no_energies("53: far too many lines", LOOP, ONCE, &format!("K,1,1,0 {}", times(lines, "J,0")), 53, 0);
    }
    let arcs: Vec<String> = (0..32).map(|t| format!("I,0,{t} O,{t},0")).collect();
    let net = format!("P,1 {} {}", times(32, "T"), arcs.join(" "));
    let last = "E,31 C,0,-,0 C,0,0,-";
    book.energies("the last of 32 transitions", &net, last, &format!("K,2,1000,0 {} J,3", times(31, "W,1000000,1000000")), [1.0, 3.0, -2.0]);
    book.no_energies("53: 31 lines for 32 transitions", &net, last, &format!("K,1,1,0 {}", times(31, "J,0")), 53, 0);
    book.no_energies("53: 33 lines for 32 transitions", &net, last, &format!("K,1,1,0 {}", times(33, "J,0")), 53, 0);
}

/// Net, record, then 52 over all lines, then 53.
fn order(book: &mut Book) {
    for (net, number, spot) in [("x", 11, 1), ("P,513", 12, 1), ("P,1 T I,1,0", 13, 3), ("P,1 T I,0,0 I,0,0", 14, 4), ("P,1 T", 15, 0), ("P,1 T O,0,0 I,0,0 R,0,0", 51, 5)] {
        book.no_energies("the net before the record", net, "x", "x", number, spot);
        book.no_energies("the net before an empty text", net, STILL, "", number, spot);
    }
    for (record, number, spot) in [("x", 31, 1), ("E,1", 33, 1), ("E,0 C,0,-,0 C,0,0,- B,1,0 B,1,0", 34, 5), ("C,0,-,- C,0,-,-", 35, 0), ("E,0 C,0,-,0", 36, 0), ("E,0 C,0,-,0 C,0,0,- B,1,0", 37, 0)] {
        book.no_energies("the record before 52", LOOP, record, "x", number, spot);
        book.no_energies("the record before 53", LOOP, record, "", number, spot);
        book.no_energies("the record, and a text in order", LOOP, record, "K,1,1,0 J,1", number, spot);
    }
    // Each of two transitions makes what the other takes; each event is then strictly before itself.
    let each_other = "P,0 P,0 T T I,0,0 O,0,1 I,1,1 O,1,0";
    for energy in ["x", "", "K,1,1,0 J,1 J,1"] {
        book.no_energies("39 before 52", each_other, "E,0 E,1 C,0,1,0 C,1,0,1", energy, 39, 0);
    }
    book.no_energies("52 before 53: too few lines", DRIVE, CASE_A, "K,1,1,0 x", 52, 2);
    book.no_energies("52 before 53: a line beyond the last transition", LOOP, ONCE, "K,1,1,0 J,0 x", 52, 3);
    book.no_energies("52 beyond the last transition: out of range", LOOP, ONCE, "K,1,1,0 J,0 J,1000001", 52, 3);
    book.no_energies("52 beyond the last transition: letter", LOOP, ONCE, "K,1,1,0 J,0 K,1,1,0", 52, 3);
    book.no_energies("52 far beyond the last transition", LOOP, ONCE, &format!("K,1,1,0 {} J,0~", times(299, "J,0")), 52, 301);
    book.no_energies("52 of the first line that is wrong", DRIVE, CASE_A, "K,1,1,0 J,0 W,0 x", 52, 3);
    book.no_energies("52 with the only line cut", "P,1", "C,0,-,-", "K,1,1,0~", 52, 1);
}

fn endings(book: &mut Book) {
    for text in [&b"K,24,325,75\nJ,1\n"[..], b"K,24,325,75\r\nJ,1\r\n", b"K,24,325,75\r\nJ,1\n", b"K,24,325,75\nJ,1\r\n"] {
        book.energies("either ending", LOOP, ONCE, text.to_vec(), [1.2, 1.0, 0.19999999999999996]);
    }
    book.energies("either ending in all texts", b"P,1\r\nT\nI,0,0\r\nO,0,0\n", b"E,0\r\nC,0,-,0\nC,0,0,-\r\n", b"K,2,1000,0\nW,1,1\r\n", [1.0, 1.0, 0.0]);
    for (text, spot) in [
        (&b"K,24,325,75\r\r\nJ,1\n"[..], 1),
        (b"K,24,325,75\rJ,1\n", 1),
        (b"\rK,24,325,75\nJ,1\n", 1),
        (b"K\r,24,325,75\nJ,1\n", 1),
        (b"K,24\r,325,75\nJ,1\n", 1),
        (b"K,24,325,75\nJ,1\r", 2),
        (b"K,24,325,75\r\nJ,1\r", 2),
        (b"K,24,325,75\r\nJ,\r1\r\n", 2),
        (b"K,24,325,75\n\r\nJ,1\n", 2),
        (b"K,24,325,75\n\rJ,1\n", 2),
        (b"K,24,325,75\r\nJ,1\r\n\r", 3),
        (b"K,24,325,75\r\nJ,1\r\n\r\n", 3),
        (b"\r", 1),
        (b"\r\n", 1),
    ] {
        book.refused_bytes("byte 13 elsewhere", text, 52, spot);
    }
}

/// The refused line of an energy text, as the second text.
fn shown(book: &mut Book) {
    book.line("line 3 of an energy text", [DRIVE, "K,1,1,0 J,1 W,4500 J,2"], (1, 3), 12, 6);
    book.line("line 1 of an energy text", [DRIVE, "K,0,1,0 J,1"], (1, 1), 0, 7);
    book.no_line("no line 0: 53", [DRIVE, "K,1,1,0"], (1, 0));
}
