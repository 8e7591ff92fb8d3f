//! Each function of the crate, accepted and refused. What is due is written out from documents 01 and 02 or stored in examples/;
//! none of it came from the library.

use pti::{Choice, Energies, NetSize, Order, Refusal, Relation, Spot, Text};
use std::path::{Path, PathBuf};

/// Write, flush, park; place 1 is dirty, and inhibits the park.
const DRIVE: &str = "P,1 P,0 P,1 P,0 P,0 T T T I,0,0 O,0,1 I,1,1 O,1,4 I,2,2 O,2,3 H,1,2";
/// The records of document 01's cases a, b and e.
const A: &str = "E,0 E,1 E,2 C,0,-,0 C,2,-,2 C,1,0,1 C,4,1,- C,3,2,- A,2,2";
const B: &str = "E,0 E,2 C,0,-,0 C,2,-,1 C,1,0,- C,3,1,- B,2,1";
const E: &str = "C,0,-,- C,2,-,-";
/// One token, which goes round.
const LOOP: &str = "P,1 T I,0,0 O,0,0";

/// A text, of which each word is a line.
fn lines(words: &str) -> Vec<u8> {
    words.split(' ').filter(|word| !word.is_empty()).map(|word| format!("{word}\n")).collect::<String>().into_bytes()
}

/// The same with bytes 13 and 10 at the end of each line.
fn returned(words: &str) -> Vec<u8> {
    String::from_utf8(lines(words)).unwrap().replace('\n', "\r\n").into_bytes()
}

fn times(count: usize, word: &str) -> String {
    vec![word; count].join(" ")
}

/// A line of so many events of one transition.
fn step(count: usize, transition: usize) -> String {
    format!("S{}", format!(",{transition}").repeat(count))
}

fn examples() -> PathBuf {
    Path::new(env!("CARGO_MANIFEST_DIR")).join("../../examples")
}

fn example(name: &str) -> Vec<u8> {
    let path = examples().join(name);
    std::fs::read(&path).unwrap_or_else(|error| panic!("{}: {error}", path.display()))
}

// ---- accepted

#[test]
fn nets_are_read() {
    assert_eq!(pti::read_net(&lines(DRIVE)), Ok(NetSize { places: 5, transitions: 3 }));
    assert_eq!(pti::read_net(&example("temperature/net")), Ok(NetSize { places: 5, transitions: 4 }));
    assert_eq!(pti::read_net(&lines(&times(32, "P,16"))), Ok(NetSize { places: 32, transitions: 0 }));
}

#[test]
fn records_are_built() {
    let net = lines(DRIVE);
    for (log, record) in [("S,0 S,1 S,2", A), ("S,0,2", B), ("", E)] {
        assert_eq!(pti::build(&net, &lines(log)), Ok(lines(record)), "{log}");
    }
}

fn checked(net: &str, record: &str) -> Order {
    pti::check(&lines(net), &lines(record)).unwrap()
}

/// Two events of which the order says something, and its value.
type Said = (usize, usize, u8);

fn said(order: &Order) -> Vec<Said> {
    let all = (0..order.events()).flat_map(|e| (0..order.events()).map(move |f| (e, f)));
    all.map(|(e, f)| (e, f, order.value(e, f))).filter(|(_, _, value)| *value != 0).collect()
}

#[test]
fn records_are_checked() {
    let f = "E,0 E,1 E,2 C,0,-,0 C,2,-,2 C,1,0,1 C,4,1,- C,3,2,- B,2,2";
    let due: [(&str, [usize; 3], &[Said]); 4] = [
        (A, [3, 5, 0], &[(0, 1, 2), (0, 2, 2), (1, 2, 2)]),
        (B, [2, 4, 0], &[(1, 0, 1)]),
        (E, [0, 2, 0], &[]),
        (f, [3, 5, 0], &[(0, 1, 2), (2, 0, 1), (2, 1, 2)]),
    ];
    for (record, counts, pairs) in due {
        let order = checked(DRIVE, record);
        assert_eq!([order.events(), order.conditions(), order.independent_pairs()], counts, "{record}");
        assert_eq!(said(&order), pairs, "{record}");
    }
    assert_eq!(format!("{:?}", checked(DRIVE, A)), "Order { events: 3, conditions: 5, independent_pairs: 0, .. }");
}

#[test]
fn relations() {
    use Relation::*;
    let both = |order: &Order, e, f| (order.relation(e, f).unwrap(), order.relation(f, e).unwrap());
    assert_eq!(both(&checked(DRIVE, A), 0, 2), (StrictlyBefore, StrictlyAfter));
    assert_eq!(both(&checked(DRIVE, B), 1, 0), (NotLater, NotEarlier));
    let of = |name: &str| {
        let net = example(&format!("{name}/net"));
        pti::check(&net, &pti::build(&net, &example(&format!("{name}/together.log"))).unwrap()).unwrap()
    };
    assert_eq!(both(&of("crossed"), 0, 1), (Together, Together));
    // tests/link/expected/temperature.together.out: four pairs that no line names.
    let order = of("temperature");
    let free: Vec<(usize, usize)> = (0..5).flat_map(|f| (0..f).map(move |e| (e, f))).filter(|(e, f)| order.independent(*e, *f)).collect();
    assert_eq!(free, [(0, 1), (1, 2), (0, 3), (2, 3)]);
    assert_eq!(order.independent_pairs(), 4);
    assert_eq!(both(&order, 2, 3), (Independent, Independent));
    assert_eq!((order.relation(2, 2), order.independent(2, 2), order.value(2, 2)), (None, false, 0));
}

#[test]
fn records_are_arranged() {
    for (record, arrangement, count) in [(A, "G,0 G,1 G,2", 3), (B, "G,0,1", 1), (E, "", 0)] {
        let shortest = pti::arrange(&lines(DRIVE), &lines(record)).unwrap();
        assert_eq!((shortest.text, shortest.lines), (lines(arrangement), count), "{record}");
    }
}

#[test]
fn arrangements_are_replayed() {
    let markings = pti::replay(&lines(DRIVE), &lines(B), &example("drive/b.park_first.arr")).unwrap();
    assert_eq!(markings.lines(), 2);
    assert_eq!(markings.iter().collect::<Vec<_>>(), [[1, 0, 1, 0, 0], [1, 0, 0, 1, 0], [0, 1, 0, 1, 0]]);
    assert_eq!((markings.after(0), markings.after(2)), (&[1, 0, 1, 0, 0][..], &[0, 1, 0, 1, 0][..]));
    let still = pti::replay(&lines(DRIVE), &lines(E), b"").unwrap();
    assert_eq!((still.lines(), still.iter().collect::<Vec<_>>()), (0, vec![&[1, 0, 1, 0, 0][..]]));
}

#[test]
fn energies() {
    for (text, [usable, draw, left]) in [("new", [196_350.0, 180_000.0, 16_350.0]), ("aged", [157_080.0, 180_000.0, -22_920.0])] {
        let text = example(&format!("energy/{text}.energy"));
        assert_eq!(pti::energy(&lines(DRIVE), &lines(A), &text), Ok(Energies { usable, draw, left }));
    }
}

#[test]
fn lines_are_found() {
    let (net, log) = (b"P,1\nP,0\r\nT\n", b"S,0\r\n\nS,");
    let found = |choice, line| pti::refused_line(net, log, choice, line);
    assert_eq!((found(Choice::Net, 1), found(Choice::Net, 2), found(Choice::Net, 3)), (Ok(0..3), Ok(4..7), Ok(9..10)));
    assert_eq!((found(Choice::Second, 1), found(Choice::Second, 2), found(Choice::Second, 3)), (Ok(0..3), Ok(5..5), Ok(6..8)));
    for choice in [Choice::Net, Choice::Second] {
        for line in [0, 4, usize::MAX] {
            assert_eq!(found(choice, line), Err(Refusal::NoSuchLine(line)));
        }
    }
    assert_eq!(Refusal::NoSuchLine(4).spot(), Spot::Asked(4));
}

#[test]
fn the_program() {
    let of = |log: &str| pti::program(&lines(&format!("{DRIVE} = {log}")));
    assert_eq!(of("S,0 S,1 S,2"), lines(&format!("{A} Z,3,5,0,3")));
    assert_eq!(of("S,0 S,2"), b"X,25,2\n");
    assert_eq!(pti::program(&lines(DRIVE)), b"X,10,0\n");
    assert_eq!(pti::program(&[&vec![b'x'; 65_534][..], b"\n=\n"].concat()), b"X,10,0\n");
    assert_eq!(pti::program(b"P,1\nT\n=\n"), b"X,15,0\n");
}

fn files(folder: &Path) -> Vec<PathBuf> {
    std::fs::read_dir(folder).unwrap().map(|entry| entry.unwrap().path()).collect()
}

/// What examples/ stores for a net and a log is what the program prints, and what its parts give one by one.
#[test]
fn stored_examples() {
    let mut tried = 0;
    for folder in files(&examples()).into_iter().filter(|path| path.join("net").exists()) {
        let net = std::fs::read(folder.join("net")).unwrap();
        for log in files(&folder).into_iter().filter(|path| path.extension().is_some_and(|end| end == "log")) {
            let (steps, stored) = (std::fs::read(&log).unwrap(), std::fs::read(log.with_extension("out")).unwrap());
            assert_eq!(pti::program(&[&net[..], b"=\n", &steps].concat()), stored, "{}", log.display());
            assert_eq!(in_parts(&net, &steps).unwrap_or_else(refused_line), stored, "{}", log.display());
            tried += 1;
        }
    }
    assert!(tried >= 18, "{tried} logs");
}

fn in_parts(net: &[u8], log: &[u8]) -> Result<Vec<u8>, Refusal> {
    let record = pti::build(net, log)?;
    let (order, shortest) = (pti::check(net, &record)?, pti::arrange(net, &record)?);
    assert_eq!(pti::replay(net, &record, &shortest.text)?.lines(), shortest.lines);
    let summary = format!("Z,{},{},{},{}\n", order.events(), order.conditions(), order.independent_pairs(), shortest.lines);
    Ok([&record[..], summary.as_bytes()].concat())
}

fn refused_line(refusal: Refusal) -> Vec<u8> {
    format!("X,{},{}\n", refusal.number(), refusal.spot().number()).into_bytes()
}

// ---- refused

/// What is due, and what a function gave.
type Refused = Vec<(Refusal, Refusal)>;

/// The refusal of a net, which is every function's that reads it.
fn of_net(net: &[u8]) -> Refusal {
    let refusal = pti::read_net(net).unwrap_err();
    assert_eq!(pti::build(net, b"x"), Err(refusal));
    assert_eq!(of_record(net, b"x"), refusal);
    refusal
}

/// The refusal of a record, which is every function's that reads it.
fn of_record(net: &[u8], record: &[u8]) -> Refusal {
    let refusal = pti::check(net, record).unwrap_err();
    assert_eq!(pti::arrange(net, record), Err(refusal));
    assert_eq!(pti::replay(net, record, b"x"), Err(refusal));
    assert_eq!(pti::energy(net, record, b"x"), Err(refusal));
    refusal
}

fn nets() -> Refused {
    vec![
        (Refusal::NetLine(3), of_net(&lines("P,1 T T,0"))),
        (Refusal::NetLimit(1), of_net(&lines("P,513"))),
        (Refusal::NetLimit(33), of_net(&lines(&times(33, "P,0")))),
        (Refusal::Undeclared(15), of_net(&lines(&DRIVE.replace("H,1,2", "H,9,2")))),
        (Refusal::ArcRepeated(5), of_net(&lines("P,1 T I,0,0 O,0,0 I,0,0"))),
        (Refusal::ArcMissing(1), of_net(&lines("P,1 T P,0 T I,0,0 O,0,1"))),
        (Refusal::ReadAndConsumed(15), of_net(&example("temperature/taken.net"))),
        (Refusal::Weight(16), of_net(&example("flush/wrong.net"))),
    ]
}

fn logs() -> Refused {
    let of = |net: &str, log: &str| pti::build(&lines(net), &lines(log)).unwrap_err();
    // One that moves any of many tokens, and one whose outputs inhibit another.
    let pour = "P,385 P,0 T I,0,0 O,0,1";
    let fill = "P,64 P,0 P,33 P,0 P,0 T T I,0,0 O,0,1 H,3,0 H,4,0 I,2,1 O,1,3 O,1,4";
    vec![
        (Refusal::LogLine(3), pti::build(&lines(DRIVE), &example("drive/cut.log")).unwrap_err()),
        (Refusal::UnknownTransition(2), of(DRIVE, "S,0 S,1,3,2")),
        (Refusal::TooManyEvents(129), of(LOOP, &times(129, "S,0"))),
        (Refusal::TooFewTokens(1), of(DRIVE, "S,0,0")),
        (Refusal::Inhibited(2), of(DRIVE, "S,0 S,2")),
        (Refusal::TooManyConditions(128), of(pour, &times(128, "S,0"))),
        (Refusal::TooManyMarks(3), of(fill, &format!("{} {} S,1", step(64, 0), step(32, 1)))),
    ]
}

fn records() -> Refused {
    let of = |net: &str, record: &str| of_record(&lines(net), &lines(record));
    let g = A.strip_suffix(" A,2,2").unwrap();
    let h = B.replace("B,2,1", "A,2,1");
    vec![
        (Refusal::RecordLine(3), of(DRIVE, "E,0 C,0,-,0 E,2")),
        (Refusal::RecordLimit(129), of(LOOP, &times(129, "E,0"))),
        (Refusal::RecordUndeclared(2), of(DRIVE, "E,0 C,0,1,-")),
        (Refusal::MarkRepeated(4), of(DRIVE, "E,0 C,0,-,0 B,0,0 B,0,0")),
        (Refusal::InitialCount(2), of(DRIVE, "C,0,-,-")),
        (Refusal::EventArcs(5), of_record(&example("flush/single.net"), &example("flush/four.record"))),
        (Refusal::EventMarks(2), of(DRIVE, g)),
        (Refusal::MarkKind(1), of(DRIVE, &h)),
        (Refusal::Circle(0), of("P,1 P,0 T I,0,0 O,0,1 H,0,0", "E,0 C,0,-,0 C,1,0,- A,0,0")),
        (Refusal::Circle(1), of("P,1 P,0 T T I,0,0 O,0,0 I,1,1 O,1,1", "E,0 E,1 C,0,-,0 C,0,0,- C,1,1,1")),
    ]
}

fn arrangements() -> Refused {
    let of = |record: &str, arrangement: &[u8]| pti::replay(&lines(DRIVE), &lines(record), arrangement).unwrap_err();
    vec![
        (Refusal::ArrangementLine(2), of(B, b"G,1\n\n")),
        (Refusal::UnknownEvent(2), of(B, b"G,1\nG,1,2\n")),
        (Refusal::EventRepeated(2), of(B, b"G,1\nG,0,1\n")),
        (Refusal::OrderBroken(1), of(B, &example("drive/b.write_first.arr"))),
        (Refusal::OrderBroken(2), of(A, b"G,0\nG,2\nG,1\n")),
        (Refusal::EventMissing(1), of(A, b"G,0\n")),
    ]
}

fn energy_texts() -> Refused {
    let of = |name: &str| pti::energy(&lines(DRIVE), &lines(A), &example(name)).unwrap_err();
    vec![(Refusal::EnergyLine(3), of("energy/wrong.energy")), (Refusal::EnergyLineCount, of("energy/short.energy"))]
}

fn no_lines() -> Refused {
    vec![(Refusal::NoSuchLine(2), pti::refused_line(b"P,1\n", b"", Choice::Net, 2).unwrap_err())]
}

fn all_refused() -> Refused {
    [nets(), logs(), records(), arrangements(), energy_texts(), no_lines()].concat()
}

#[test]
fn refusals() {
    for (due, given) in all_refused() {
        assert_eq!(given, due);
    }
}

/// 10 is the program's, and no buffer that the crate lends is too short: 20, 30, 40 and 50.
#[test]
fn every_other_refusal_is_met() {
    let mut met: Vec<u64> = all_refused().iter().map(|(due, _)| due.number()).collect();
    met.sort_unstable();
    met.dedup();
    let all: Vec<u64> = (1..1000).filter(|number| Refusal::of(*number, 0).is_some() && ![10, 20, 30, 40, 50].contains(number)).collect();
    assert_eq!(met, all);
}

/// By what docs/REFUSALS.txt says of each spot.
#[test]
fn spots() {
    let spot = |number: u64| all_refused().into_iter().find(|(due, _)| due.number() == number).unwrap().1.spot();
    assert_eq!(spot(13), Spot::Line(Text::Net, 15));
    assert_eq!(spot(25), Spot::Line(Text::Log, 2));
    assert_eq!(spot(31), Spot::Line(Text::Record, 3));
    assert_eq!(spot(42), Spot::Line(Text::Arrangement, 2));
    assert_eq!(spot(52), Spot::Line(Text::Energy, 3));
    assert_eq!(spot(15), Spot::Transition(1));
    assert_eq!(spot(35), Spot::Place(2));
    assert_eq!(spot(36), Spot::Event(5));
    assert_eq!(spot(45), Spot::Event(1));
    assert_eq!(spot(53), Spot::Whole);
    assert_eq!(spot(46), Spot::Asked(2));
    assert_eq!([13, 15, 35, 36, 53, 46].map(|number| spot(number).number()), [15, 1, 2, 5, 0, 2]);
}

#[test]
fn refusals_in_words() {
    let words = "refused, 25: inhibited: a place that inhibits one of the step's events is not empty before the step (line 2 of the log)";
    assert_eq!(pti::build(&lines(DRIVE), &lines("S,0 S,2")).unwrap_err().to_string(), words);
    let words = "refused, 15: the transition lacks an input or an output (transition 1)";
    assert_eq!(Refusal::ArcMissing(1).to_string(), words);
    for (spot, words) in [(Spot::Whole, "as a whole"), (Spot::Place(2), "place 2"), (Spot::Event(5), "event 5"), (Spot::Asked(4), "line 4")] {
        assert_eq!(spot.to_string(), words);
    }
    for (text, words) in [(Text::Net, "net"), (Text::Record, "record"), (Text::Arrangement, "arrangement"), (Text::Energy, "energy text")] {
        assert_eq!(Spot::Line(text, 3).to_string(), format!("line 3 of the {words}"));
    }
}

// ---- indices

#[test]
#[should_panic(expected = "the record has 3 events")]
fn no_value_of_a_fourth_event() {
    checked(DRIVE, A).value(0, 3);
}

#[test]
#[should_panic(expected = "the record has 3 events")]
fn no_relation_of_a_fourth_event() {
    checked(DRIVE, A).relation(3, 3);
}

#[test]
#[should_panic(expected = "the record has 0 events")]
fn no_independence_without_events() {
    checked(DRIVE, E).independent(0, 0);
}

#[test]
#[should_panic(expected = "the arrangement has 1 lines")]
fn no_marking_after_a_second_line() {
    pti::replay(&lines(DRIVE), &lines(B), b"G,0,1\n").unwrap().after(2);
}

// ---- texts at their ends

#[test]
fn empty_texts() {
    assert_eq!(pti::read_net(b""), Ok(NetSize { places: 0, transitions: 0 }));
    assert_eq!(pti::build(b"", b""), Ok(vec![]));
    let order = pti::check(b"", b"").unwrap();
    assert_eq!((order.events(), order.conditions(), order.independent_pairs()), (0, 0, 0));
    let shortest = pti::arrange(b"", b"").unwrap();
    assert_eq!((&shortest.text[..], shortest.lines), (&b""[..], 0));
    let markings = pti::replay(b"", b"", b"").unwrap();
    assert_eq!((markings.lines(), markings.iter().collect::<Vec<_>>()), (0, vec![&[][..]]));
    assert_eq!(pti::energy(b"", b"", b""), Err(Refusal::EnergyLineCount));
    assert_eq!(pti::refused_line(b"", b"", Choice::Net, 1), Err(Refusal::NoSuchLine(1)));
    assert_eq!(pti::program(b""), b"X,10,0\n");
    assert_eq!(pti::check(&lines(DRIVE), b"").unwrap_err().spot(), Spot::Place(0));
    assert_eq!(pti::replay(&lines(DRIVE), &lines(A), b""), Err(Refusal::EventMissing(0)));
}

/// Lines that end with 13 and 10 say the same, and what is written has 10 alone.
#[test]
fn returns() {
    let net = returned(DRIVE);
    assert_eq!(pti::read_net(&net), Ok(NetSize { places: 5, transitions: 3 }));
    assert_eq!(pti::build(&net, &returned("S,0 S,1 S,2")), Ok(lines(A)));
    assert_eq!(pti::check(&net, &returned(A)), pti::check(&lines(DRIVE), &lines(A)));
    assert_eq!(pti::arrange(&net, &returned(B)).unwrap().text, b"G,0,1\n");
    let markings = pti::replay(&net, &returned(B), b"G,1\r\nG,0\n").unwrap();
    assert_eq!(markings.iter().collect::<Vec<_>>(), [[1, 0, 1, 0, 0], [1, 0, 0, 1, 0], [0, 1, 0, 1, 0]]);
    let energies = pti::energy(&net, &returned(A), &returned("K,3300,12000,5000 W,2500,8 W,4500,24 J,52000")).unwrap();
    assert_eq!((energies.usable, energies.draw, energies.left), (196_350.0, 180_000.0, 16_350.0));
    assert_eq!(pti::program(&returned(&format!("{DRIVE} = S,0 S,2"))), b"X,25,2\n");
    // Anywhere else byte 13 is no line end.
    assert_eq!(pti::build(&net, b"S,0\r\nS,1\r"), Err(Refusal::LogLine(2)));
    assert_eq!(pti::read_net(b"P,1\r\r\n"), Err(Refusal::NetLine(1)));
}

/// As many events as there may be, one after the other: the longest arrangement, and the most markings.
#[test]
fn most_events() {
    let next = |event: usize| if event < 128 { event.to_string() } else { "-".to_string() };
    let made: Vec<String> = (0..128).map(|event| format!("C,0,{event},{}", next(event + 1))).collect();
    let (net, record) = (lines(LOOP), lines(&format!("{} C,0,-,0 {}", times(128, "E,0"), made.join(" "))));
    assert_eq!(pti::build(&net, &lines(&times(128, "S,0"))), Ok(record.clone()));
    let order = pti::check(&net, &record).unwrap();
    assert_eq!((order.events(), order.conditions(), order.independent_pairs()), (128, 129, 0));
    assert!((0..128).all(|f| (0..f).all(|e| order.relation(e, f) == Some(Relation::StrictlyBefore))));
    let shortest = pti::arrange(&net, &record).unwrap();
    let due: Vec<String> = (0..128).map(|event| format!("G,{event}")).collect();
    assert_eq!((&shortest.text, shortest.lines), (&lines(&due.join(" ")), 128));
    let markings = pti::replay(&net, &record, &shortest.text).unwrap();
    assert_eq!(markings.lines(), 128);
    assert_eq!(markings.iter().collect::<Vec<_>>(), [[1]; 129]);
}

/// The same number in one step, each free to swap with each.
#[test]
fn most_pairs() {
    let net = lines("P,384 P,0 T I,0,0 O,0,1");
    let record = pti::build(&net, &lines(&step(128, 0))).unwrap();
    let order = pti::check(&net, &record).unwrap();
    assert_eq!((order.events(), order.conditions(), order.independent_pairs()), (128, 512, 8_128));
    assert!((0..128).all(|f| (0..f).all(|e| order.independent(e, f))));
    assert_eq!(pti::arrange(&net, &record).unwrap().lines, 1);
}
