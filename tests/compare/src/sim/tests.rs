//! The simulator against the vectors, and against literal renderings of the rules for which it takes a short cut.

use crate::answer::Answer;
use crate::case::{difference, lent, run, Case, Operation, Outcome, Subject};
use crate::gen::{self, Size, SMALL};
use crate::model::{log_text, ConditionPlan, MarkPlan, NetPlan, RecordPlan};
use crate::rng::Rng;
use crate::sim::{Requests, Simulator, BEFORE, EVENTS, SIMULATOR, WITHOUT_RETURNS};
use crate::{corpus, vectors};

#[test]
fn vectors_hold() {
    let wrong: Vec<String> = vectors::all()
        .iter()
        .filter_map(|vector| {
            let found = difference(&run(&SIMULATOR, &vector.case), &vector.outcome())?;
            Some(format!("{}: {found}\n{}", vector.name, vector.case))
        })
        .collect();
    assert!(wrong.is_empty(), "{} vectors differ:\n{}", wrong.len(), wrong.join("\n"));
}

const MORE: Size = Size { tokens: 5, events: 20, ..SMALL };

#[test]
fn built_record_is_the_literal_one() {
    for round in 0..3_000 {
        let mut rng = Rng::for_round(11, round);
        let net = gen::net(&mut rng, MORE);
        let steps = gen::play(&mut rng, &net, MORE);
        let built = gen::build(&net.text(), &log_text(&steps)).expect("an enabled step sequence");
        let literal = Literal::play(&net, &steps).text();
        assert_eq!(String::from_utf8(built), String::from_utf8(literal), "round {round}");
    }
}

/// Building, sentence by sentence.
struct Literal {
    record: RecordPlan,
    /// The step of each event.
    step_of: Vec<usize>,
    /// Each event and condition that it reads.
    read: Vec<(usize, usize)>,
}

impl Literal {
    fn play(net: &NetPlan, steps: &[Vec<usize>]) -> RecordPlan {
        let mut literal = Literal { record: RecordPlan::default(), step_of: Vec::new(), read: Vec::new() };
        for (place, tokens) in net.tokens.iter().enumerate() {
            (0..*tokens).for_each(|_| literal.make(place, None));
        }
        for (number, step) in steps.iter().enumerate() {
            literal.step(net, number, step);
        }
        literal.marks(net);
        literal.record
    }

    fn make(&mut self, place: usize, producer: Option<usize>) {
        self.record.conditions.push(ConditionPlan { place, producer, consumer: None });
    }

    fn step(&mut self, net: &NetPlan, number: usize, step: &[usize]) {
        let conditions = &self.record.conditions;
        let held: Vec<usize> = (0..conditions.len()).filter(|c| conditions[*c].consumer.is_none()).collect();
        for transition in step {
            let event = self.record.events.len();
            self.record.events.push(*transition);
            self.step_of.push(number);
            for place in (0..net.places()).filter(|p| net.reads[*transition] >> p & 1 == 1) {
                let lowest = held.iter().find(|c| self.record.conditions[**c].place == place);
                self.read.push((event, *lowest.expect("the step is enabled")));
            }
            for place in 0..net.places() {
                (0..net.weight('I', *transition, place)).for_each(|_| self.take(&held, place, event));
            }
            for place in 0..net.places() {
                (0..net.weight('O', *transition, place)).for_each(|_| self.make(place, Some(event)));
            }
        }
    }

    /// The lowest of the place that held when the step began and that nobody took.
    fn take(&mut self, held: &[usize], place: usize, event: usize) {
        let conditions = &mut self.record.conditions;
        let lowest = held.iter().find(|c| conditions[**c].place == place && conditions[**c].consumer.is_none());
        conditions[*lowest.expect("the step is enabled")].consumer = Some(event);
    }

    fn marks(&mut self, net: &NetPlan) {
        for (event, transition) in self.record.events.iter().enumerate() {
            for (number, condition) in self.record.conditions.iter().enumerate() {
                if self.read.contains(&(event, number)) {
                    self.record.marks.push(MarkPlan { letter: 'R', condition: number, event });
                }
                if net.inhibitors[*transition] >> condition.place & 1 == 0 || condition.producer == Some(event) {
                    continue;
                }
                let consumed_earlier = condition.consumer.is_some_and(|consumer| self.step_of[consumer] < self.step_of[event]);
                self.record.marks.push(MarkPlan { letter: if consumed_earlier { 'A' } else { 'B' }, condition: number, event });
            }
        }
    }
}

#[test]
fn lines_are_longest_chains() {
    let mut long = 0;
    for round in 0..3_000 {
        let mut rng = Rng::for_round(12, round);
        let net = gen::net(&mut rng, MORE);
        let steps = gen::play(&mut rng, &net, MORE);
        let mut plan = RecordPlan::read(&gen::build(&net.text(), &log_text(&steps)).expect("an enabled step sequence"));
        gen::change(&mut rng, &mut plan);
        let (net, record) = (net.text(), plan.text());
        let mut checked = run(&SIMULATOR, &Case::new(Operation::Check, &[&net, &record]));
        if !checked.answer.accepted() {
            continue;
        }
        let levels = levels(checked.answer.a as usize, lent(&mut checked.bytes));
        let mut arranged = run(&SIMULATOR, &Case::new(Operation::Arrange, &[&net, &record]));
        let text = &lent(&mut arranged.bytes)[..arranged.answer.a as usize];
        assert_eq!(String::from_utf8_lossy(text), levels_text(&levels), "round {round}");
        long += (arranged.answer.b > 4) as usize;
    }
    assert!(long > 100, "only {long} arrangements of more than four lines");
}

/// The most strict pairs in a chain of the closed order that ends at each event, from chains of ever more pairs.
fn levels(events: usize, table: &[u8]) -> Vec<usize> {
    let mut most = vec![0; events];
    for _ in 0..events {
        let best = |f: usize| (0..events).filter(|e| table[EVENTS * e + f] > 0).map(|e| most[e] + table[EVENTS * e + f] as usize - 1).max();
        most = (0..events).map(|f| best(f).unwrap_or(0).max(most[f])).collect();
    }
    most
}

fn levels_text(levels: &[usize]) -> String {
    let lines = levels.iter().max().map_or(0, |last| last + 1);
    let line = |level: usize| (0..levels.len()).filter(|event| levels[*event] == level).map(|event| format!(",{event}")).collect::<String>();
    (0..lines).map(|level| format!("G{}\n", line(level))).collect()
}

/// Where no text makes use of a request or of a later one, the simulator as it was before gives the same outcome as it does now;
/// of the requests that add to the texts.
#[test]
fn requests_turned_off_change_nothing_else() {
    let vectors = vectors::all().into_iter().map(|vector| vector.case);
    let generated = (0..6_000).flat_map(|round| gen::round_with(&mut Rng::for_round(15, round), Requests::BEFORE[round as usize % BEFORE.len()]));
    let mut same = [0; BEFORE.len()];
    // Of the fixed cases those of document 01 are enough, and of each case the first request that it has no use of: the comparison
    // tries more.
    let fixed = corpus::all().into_iter().filter(|case| case.within(Requests::BEFORE[0]));
    for case in vectors.chain(fixed).chain(generated) {
        let Some(first) = (0..BEFORE.len()).find(|turn| case.within(Requests::BEFORE[*turn])) else {
            continue;
        };
        let found = difference(&run(&SIMULATOR, &case), &run(&BEFORE[first], &case));
        assert!(found.is_none(), "{}\n{case}", found.unwrap_or_default());
        same[first] += 1;
    }
    assert!(same[0] > 100_000 && same[1] > 5_000 && same[2] > 5_000, "{same:?} cases");
}

/// The generators without a request make nothing of it but by damage.
#[test]
fn earlier_rounds_make_no_use_of_later_requests() {
    for requests in Requests::BEFORE {
        let cases = (0..3_000).flat_map(|round| gen::round_with(&mut Rng::for_round(15, round), requests));
        let (within, other): (Vec<Case>, Vec<Case>) = cases.partition(|case| case.within(requests));
        assert!(within.len() > 50 * other.len(), "{} cases within {requests:?} and {} others", within.len(), other.len());
    }
}

/// Document 01's count of pairs, all else as it is now.
const PAIRS_OF_DOCUMENT_01: Simulator = Simulator { requests: Requests { free_to_swap: false, ..Requests::ALL } };

/// Turned off, 2026-04 changes the third number of the check and of the `Z` line, and nothing else: by as many pairs as are
/// ordered by 1s alone.
#[test]
fn requests_turned_off_count_weakly_ordered_pairs() {
    let mut more = [0; 2];
    for case in (0..3_000).flat_map(|round| gen::round(&mut Rng::for_round(18, round))) {
        let (mut now, mut old) = (run(&SIMULATOR, &case), run(&PAIRS_OF_DOCUMENT_01, &case));
        if case.operation == Operation::Check && now.answer.accepted() {
            let table = lent(&mut now.bytes);
            let weak = |e: usize, f: usize| table[EVENTS * e + f].max(table[EVENTS * f + e]) == 1;
            let weakly: usize = (0..now.answer.a as usize).map(|f| (0..f).filter(|e| weak(*e, f)).count()).sum();
            assert_eq!(old.answer.c, now.answer.c + weakly as u64, "{case}");
            more[0] += (weakly > 0) as usize;
            old.answer.c = now.answer.c;
        }
        if case.operation == Operation::Program && old != now {
            more[1] += 1;
            assert!(same_but_the_pairs(&mut old, &mut now), "{case}");
        } else {
            assert_eq!(difference(&old, &now), None, "{case}");
        }
    }
    assert!(more.iter().all(|count| *count > 100), "{more:?} records and logs");
}

/// Are two texts that the program printed the same but for the third number of their `Z` lines, which is greater in the first?
fn same_but_the_pairs(old: &mut Outcome, now: &mut Outcome) -> bool {
    let parted = |outcome: &mut Outcome| -> (Vec<String>, usize) {
        let printed = String::from_utf8_lossy(&lent(&mut outcome.bytes)[..outcome.answer.a as usize]).into_owned();
        let (record, last) = printed.split_at(printed.rfind('Z').unwrap_or(0));
        let words: Vec<&str> = last.split(',').collect();
        (vec![record.to_string(), words[..3].join(","), words[4..].join(",")], words[3].parse().expect("a number"))
    };
    let (old, now) = (parted(old), parted(now));
    old.0 == now.0 && old.1 > now.1
}

fn refusal(subject: &Simulator, operation: Operation, texts: &[&[u8]]) -> (u64, u64) {
    run(subject, &Case::new(operation, texts)).refusal()
}

/// Turned off, an R line is malformed, in a net and in a record.
#[test]
fn requests_turned_off_know_no_reads() {
    let reading = vectors::Text::from("P,1 P,1 T I,0,0 O,0,0 R,1,0").0;
    assert_eq!(refusal(&SIMULATOR, Operation::ReadNet, &[&reading]), (0, 0));
    assert_eq!(refusal(&BEFORE[0], Operation::ReadNet, &[&reading]), (11, 6));
    let record = vectors::Text::from("C,0,-,- R,0,0").0;
    assert_eq!(refusal(&SIMULATOR, Operation::Check, &[b"P,1\n", &record]), (33, 2));
    assert_eq!(refusal(&BEFORE[0], Operation::Check, &[b"P,1\n", &record]), (31, 2));
}

/// Turned off, byte 13 is foreign wherever it stands, and a line's last byte where it stands before byte 10.
#[test]
fn requests_turned_off_know_no_returns() {
    let net = b"P,1\nT\nI,0,0\nO,0,0\n";
    for before in [&BEFORE[0], &BEFORE[1], &WITHOUT_RETURNS] {
        assert_eq!(refusal(before, Operation::ReadNet, &[b"P,1\nP,1\r\n"]), (11, 2));
        assert_eq!(refusal(before, Operation::Build, &[net, b"S,0\r\n"]), (21, 1));
        assert_eq!(refusal(before, Operation::Check, &[b"P,1\n", b"C,0,-,-\r\n"]), (31, 1));
        assert_eq!(refusal(before, Operation::Replay, &[b"", b"", b"G,0\r\n"]), (41, 1));
        assert_eq!(refusal(before, Operation::Program, &[b"=\r\n"]), (10, 0));
        assert_eq!(refusal(before, Operation::Program, &[b"=\n\r\n"]), (21, 1));
        assert_eq!(before.refused_line(b"ab\r\nc\r\n", b"", 0, 2), Answer::gives(4, 2, 0));
    }
}

/// A text with 13 10 for some of its bytes 10 has the outcome that the text had before there was the request.
#[test]
fn either_ending_is_read_as_one() {
    for round in 0..2_000 {
        for (plain, other) in gen::two_endings(&mut Rng::for_round(16, round)) {
            if plain.operation != Operation::RefusedLine {
                assert_eq!(difference(&run(&SIMULATOR, &other), &run(&WITHOUT_RETURNS, &plain)), None, "{other}");
            }
        }
    }
}

/// Turned off, a third field is malformed, whatever stands in it and before anything else is judged.
#[test]
fn requests_turned_off_know_no_weights() {
    for (arc, now) in [("I,0,0,1", 15), ("O,0,0,16", 15), ("I,0,0,17", 54), ("O,0,0,0", 54), ("I,9,0,1", 13), ("O,9,0,17", 13)] {
        let net = vectors::Text::from(&format!("P,1 T {arc}")).0;
        assert_eq!(refusal(&SIMULATOR, Operation::ReadNet, &[&net]).0, now, "{arc}");
        for before in &BEFORE {
            assert_eq!(refusal(before, Operation::ReadNet, &[&net]), (11, 3), "{arc}");
        }
    }
}

/// Where the weight 1 is written on some arcs of a net, the outcome is what it was before there were weights.
#[test]
fn weight_1_is_none() {
    let mut same = 0;
    for (plain, other) in (0..3_000).flat_map(|round| gen::two_spellings(&mut Rng::for_round(26, round))) {
        if plain.operation != Operation::RefusedLine && plain.within(Requests::BEFORE[2]) {
            assert_eq!(difference(&run(&SIMULATOR, &other), &run(&BEFORE[2], &plain)), None, "{other}");
            same += 1;
        }
    }
    assert!(same > 3_000, "{same} cases");
}

/// Energies as the document says them, in the machine's floats: halved, then divided; summed event by event; subtracted.
fn literal_energies(record: &[u8], energy: &[u8]) -> [u64; 3] {
    let (record, energy) = (String::from_utf8_lossy(record), String::from_utf8_lossy(energy));
    let figures = |line: &str| line.split(',').skip(1).map(|figure| figure.parse().expect("a figure")).collect::<Vec<f64>>();
    let mut lines = energy.lines().map(figures);
    let [capacitance, full, cutoff] = lines.next().expect("a capacitor")[..] else { panic!("three figures") };
    let draws: Vec<f64> = lines.map(|load| load.iter().product()).collect();
    let events = record.lines().filter_map(|line| line.strip_prefix("E,"));
    let draw = events.fold(0.0, |sum, transition| sum + draws[transition.parse::<usize>().expect("a transition")]);
    let usable = capacitance * (full * full - cutoff * cutoff) / 2.0 / 1_000_000.0;
    [usable, draw, usable - draw].map(f64::to_bits)
}

#[test]
fn energies_are_the_literal_ones() {
    let fixed = corpus::all().into_iter().filter(|case| case.operation == Operation::Energy);
    let generated = (0..12_000).flat_map(|round| gen::round(&mut Rng::for_round(25, round)));
    let mut given = 0;
    for case in fixed.chain(generated.filter(|case| case.operation == Operation::Energy)) {
        let answer = run(&SIMULATOR, &case).answer;
        if answer.accepted() {
            assert_eq!([answer.a, answer.b, answer.c], literal_energies(&case.texts[1], &case.texts[2]), "{case}");
            given += 1;
        }
    }
    assert!(given > 10_000, "{given} energies");
}
