//! Each clause would fail: subjects that are right but for one fault, and the clause that must see it.

use super::{judge, Clause, Counts, Plan};
use crate::answer::Answer;
use crate::case::Subject;
use crate::gen::weights::ends;
use crate::sim::{SIMULATOR, PROGRAM_ROOM};

#[derive(Clone, Copy, Debug, PartialEq)]
enum Fault {
    EventLeftOut,
    EventTwice,
    EmptyLine,
    AllOnOneLine,
    LinesSwapped,
    OneEventALine,
    CountOfNothing,
    CountOneMore,
    InhibitorsForgotten,
    ReadsForgotten,
    WeightsForgotten,
    WeightsForgottenInBuilding,
    TokensOfOneAsked,
    CountsUnjudged,
    CountsAtTheHighest,
    KeepingRefused,
    BreakingAccepted,
    FirstRowCopied,
    AllOnFirstRow,
    RowsBeyondFilled,
    LinesMiscounted,
    LastRowOfItsOwn,
    TableEmpty,
    TableTransposed,
    StrictAsWeak,
    WeakAsStrict,
    WeakLeftOut,
    Diagonal,
    PairsMiscounted,
    WeakPairsCounted,
    MarkedRecordRefused,
    AnyCycleRefused,
    RenamedRecordRefused,
    CycleAccepted,
    AfterForBefore,
    StepRefused,
    WrongStepBuilt,
}

use Fault::*;

const SEEN: [(Fault, Clause); 37] = [
    (EventLeftOut, Clause::Placed),
    (EventTwice, Clause::Placed),
    (EmptyLine, Clause::Placed),
    (AllOnOneLine, Clause::Keeps),
    (LinesSwapped, Clause::Keeps),
    (OneEventALine, Clause::Least),
    (CountOfNothing, Clause::Least),
    (CountOneMore, Clause::Least),
    (InhibitorsForgotten, Clause::Enabled),
    (ReadsForgotten, Clause::Enabled),
    (WeightsForgotten, Clause::Accepted),
    (WeightsForgottenInBuilding, Clause::Accepted),
    (TokensOfOneAsked, Clause::Built),
    (CountsUnjudged, Clause::Counted),
    (CountsAtTheHighest, Clause::Counted),
    (KeepingRefused, Clause::Replayed),
    (BreakingAccepted, Clause::Replayed),
    (FirstRowCopied, Clause::Markings),
    (AllOnFirstRow, Clause::Markings),
    (RowsBeyondFilled, Clause::Markings),
    (LinesMiscounted, Clause::Markings),
    (LastRowOfItsOwn, Clause::SameEnd),
    (TableEmpty, Clause::Strict),
    (TableTransposed, Clause::Strict),
    (StrictAsWeak, Clause::Strict),
    (WeakAsStrict, Clause::Strict),
    (WeakLeftOut, Clause::NotLater),
    (Diagonal, Clause::Rest),
    (PairsMiscounted, Clause::Swapped),
    (WeakPairsCounted, Clause::Swapped),
    (MarkedRecordRefused, Clause::Accepted),
    (AnyCycleRefused, Clause::Accepted),
    (RenamedRecordRefused, Clause::Process),
    (CycleAccepted, Clause::Process),
    (AfterForBefore, Clause::Own),
    (StepRefused, Clause::Built),
    (WrongStepBuilt, Clause::Built),
];

/// The simulator with one fault.
struct Faulty(Fault);

fn lines_of(text: &[u8]) -> Vec<Vec<u8>> {
    text.split_inclusive(|byte| *byte == 10).map(|line| line.to_vec()).collect()
}

fn without(letters: &[u8], text: &[u8]) -> Vec<u8> {
    lines_of(text).into_iter().filter(|line| !letters.contains(&line[0])).collect::<Vec<_>>().concat()
}

/// The net with every weight 1.
fn without_weights(net: &[u8]) -> Vec<u8> {
    let text = String::from_utf8_lossy(net);
    text.lines().map(|line| format!("{}\n", ends(line))).collect::<String>().into_bytes()
}

/// Whether the first condition is one that an event made, as in no built record of a net with tokens.
fn made_first(record: &[u8]) -> bool {
    let lines = lines_of(record);
    let first = lines.iter().find(|line| line[0] == b'C');
    first.and_then(|line| line.split(|byte| *byte == b',').nth(2)).is_some_and(|producer| producer != b"-")
}

/// A step that has no tokens to take from, or is inhibited.
fn not_enabled(answer: &Answer) -> bool {
    answer.number == 24 || answer.number == 25
}

impl Faulty {
    /// The net as the operations on records see it.
    fn seen_net(&self, net: &[u8]) -> Vec<u8> {
        match self.0 {
            InhibitorsForgotten => without(b"H", net),
            ReadsForgotten => without(b"R", net),
            WeightsForgotten => without_weights(net),
            _ => net.to_vec(),
        }
    }

    fn built(&self, record: &mut Vec<u8>) {
        match self.0 {
            InhibitorsForgotten => *record = without(b"BA", record),
            ReadsForgotten => *record = without(b"R", record),
            AfterForBefore => {
                let lines = lines_of(record);
                let conditions: Vec<&Vec<u8>> = lines.iter().filter(|line| line[0] == b'C').collect();
                let consumed = |line: &Vec<u8>| {
                    let condition = String::from_utf8_lossy(line).split(',').nth(1).and_then(|word| word.parse::<usize>().ok());
                    condition.is_some_and(|condition| !conditions[condition].ends_with(b"-\n"))
                };
                let changed = |line: &Vec<u8>| if line[0] == b'B' && consumed(line) { [b"A", &line[1..]].concat() } else { line.clone() };
                *record = lines.iter().map(changed).collect::<Vec<_>>().concat();
            }
            _ => {}
        }
    }

    fn table(&self, answer: &mut Answer, table: &mut [u8]) {
        let events = answer.a as usize;
        let old = table.to_vec();
        let weak_both_ways = (0..16_384).any(|at| old[at] == 1 && old[128 * (at % 128) + at / 128] == 1);
        match self.0 {
            TableEmpty => table.fill(0),
            TableTransposed => (0..16_384).for_each(|at| table[at] = old[128 * (at % 128) + at / 128]),
            StrictAsWeak => table.iter_mut().for_each(|entry| *entry = (*entry).min(1)),
            WeakAsStrict => table.iter_mut().for_each(|entry| *entry *= 2 / (*entry).max(1)),
            WeakLeftOut => table.iter_mut().for_each(|entry| *entry = *entry / 2 * 2),
            Diagonal if events > 1 => table[129] = 1,
            PairsMiscounted => answer.c += (events > 2) as u64,
            WeakPairsCounted => answer.c += (0..16_384).filter(|at| at % 128 < at / 128 && old[*at].max(old[128 * (at % 128) + at / 128]) == 1).count() as u64,
            AnyCycleRefused if weak_both_ways => *answer = Answer::refuses(39, 0),
            _ => {}
        }
    }

    fn rows(&self, answer: &mut Answer, rows: &mut [u16]) {
        let lines = answer.a as usize;
        let (first, last) = (rows[..32].to_vec(), rows[32 * lines..][..32].to_vec());
        match self.0 {
            FirstRowCopied if lines == 1 => rows[32..64].copy_from_slice(&first),
            AllOnFirstRow => (1..lines).for_each(|k| rows[32 * k..][..32].copy_from_slice(&last)),
            RowsBeyondFilled => rows[4_127] = 1,
            LinesMiscounted => answer.a += 1,
            LastRowOfItsOwn if lines > 1 => rows[32 * lines] += lines as u16,
            _ => {}
        }
    }

    fn arranged(&self, answer: &mut Answer, text: &mut Vec<u8>) {
        let lines = lines_of(text);
        let numbers: Vec<String> = String::from_utf8_lossy(text).split(['G', ',', '\n']).filter(|word| !word.is_empty()).map(String::from).collect();
        let one_each = |letter: &str| numbers.iter().map(|number| format!("{letter}{number}\n")).collect::<String>().into_bytes();
        match self.0 {
            EventLeftOut => *text = lines[..lines.len() - 1].concat(),
            EventTwice => *text = [&text[..], &lines[0]].concat(),
            EmptyLine => *text = [&b"G\n"[..], text].concat(),
            AllOnOneLine => *text = format!("G,{}\n", numbers.join(",")).into_bytes(),
            LinesSwapped => *text = lines.into_iter().rev().collect::<Vec<_>>().concat(),
            OneEventALine => *text = one_each("G,"),
            CountOfNothing => answer.b = 0,
            CountOneMore => answer.b += 1,
            _ => {}
        }
        answer.a = text.len() as u64;
        if matches!(self.0, AllOnOneLine | OneEventALine) {
            answer.b = lines_of(text).len() as u64;
        }
    }
}

impl Subject for Faulty {
    fn name(&self) -> &'static str {
        "faulty"
    }

    fn read_net(&self, net: &[u8]) -> Answer {
        SIMULATOR.read_net(net)
    }

    fn build(&self, net: &[u8], log: &[u8], out: &mut [u8]) -> Answer {
        let answer = SIMULATOR.build(net, log, out);
        if self.0 == TokensOfOneAsked && answer.number == 24 || self.0 == WeightsForgottenInBuilding && answer.accepted() {
            return SIMULATOR.build(&without_weights(net), log, out);
        }
        if self.0 == StepRefused && answer.accepted() && log.ends_with(b",0,0\n") {
            return Answer::refuses(24, 1);
        }
        if self.0 == WrongStepBuilt && not_enabled(&answer) && log.ends_with(b",1\n") {
            return Answer::gives(0, 0, 0);
        }
        if !answer.accepted() {
            return answer;
        }
        let mut record = out[..answer.a as usize].to_vec();
        self.built(&mut record);
        out[..record.len()].copy_from_slice(&record);
        Answer::gives(record.len(), 0, 0)
    }

    fn check(&self, net: &[u8], record: &[u8], table: &mut [u8]) -> Answer {
        let mut answer = SIMULATOR.check(&self.seen_net(net), record, table);
        if answer.accepted() {
            self.table(&mut answer, table);
        }
        let any_line = |wrong: fn(&[u8]) -> bool| lines_of(record).iter().any(|line| wrong(line));
        match self.0 {
            MarkedRecordRefused if answer.accepted() && any_line(|line| line[0] == b'A') => Answer::refuses(37, 0),
            RenamedRecordRefused if answer.accepted() && made_first(record) => Answer::refuses(39, 0),
            CycleAccepted if answer.number == 39 => Answer::gives(0, 0, 0),
            CountsUnjudged if answer.number == 36 => Answer::gives(0, 0, 0),
            CountsAtTheHighest if answer.number == 36 => Answer::refuses(36, lines_of(record).iter().filter(|line| line[0] == b'E').count() as u64 - 1),
            _ => answer,
        }
    }

    fn replay(&self, net: &[u8], record: &[u8], arrangement: &[u8], rows: &mut [u16]) -> Answer {
        let mut answer = SIMULATOR.replay(&self.seen_net(net), record, arrangement, rows);
        if answer.accepted() {
            self.rows(&mut answer, rows);
        }
        match self.0 {
            KeepingRefused if answer.accepted() && arrangement.starts_with(b"G,1,0") => Answer::refuses(44, 1),
            BreakingAccepted if answer.number == 44 && arrangement.starts_with(b"G,1,0") => Answer::gives(1, 0, 0),
            _ => answer,
        }
    }

    fn arrange(&self, net: &[u8], record: &[u8], out: &mut [u8]) -> Answer {
        let mut answer = SIMULATOR.arrange(&self.seen_net(net), record, out);
        if answer.accepted() && answer.a > 0 {
            let mut text = out[..answer.a as usize].to_vec();
            self.arranged(&mut answer, &mut text);
            out[..text.len()].copy_from_slice(&text);
        }
        answer
    }

    fn energy(&self, net: &[u8], record: &[u8], energy: &[u8]) -> Answer {
        SIMULATOR.energy(net, record, energy)
    }

    fn refused_line(&self, net: &[u8], second: &[u8], choice: u8, line: u64) -> Answer {
        SIMULATOR.refused_line(net, second, choice, line)
    }

    fn program(&self, input: &[u8], out: &mut [u8; PROGRAM_ROOM]) -> Answer {
        SIMULATOR.program(input, out)
    }
}

/// The clause named sees the fault, by the runs of few nets; and there is a fault for each clause. Of a wrong number of pairs no
/// other clause knows.
#[test]
fn each_clause_sees_its_faults() {
    let mut wrong = Vec::new();
    for (fault, clause) in SEEN {
        let found = judge(&Faulty(fault), &Plan { nets: 12, runs: 40, seed: 5 }, &mut Counts::default());
        let clauses: Vec<Clause> = found.iter().map(|(_, failure)| failure.clause).collect();
        let others = clause == Clause::Swapped && clauses.iter().any(|seen| *seen != clause);
        if !clauses.contains(&clause) || others {
            wrong.push(format!("{fault:?}: {clauses:?} and not {clause:?}"));
        }
    }
    assert!(wrong.is_empty(), "{}", wrong.join("\n"));
    let has_fault = |clause: Clause| SEEN.iter().any(|(_, seen)| *seen == clause);
    assert!(Clause::ALL.iter().all(|(clause, _)| has_fault(*clause)));
}
