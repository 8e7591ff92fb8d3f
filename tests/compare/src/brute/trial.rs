//! One net: its records and their arrangements, judged clause by clause.

use super::runs::{arrangements, by_line, line_count, LineOf};
use super::{Clause, Counts};
use crate::answer::Answer;
use crate::case::Subject;
use crate::model::{arrangement_text, log_text, ConditionPlan, Marking, NetPlan, RecordPlan};
use crate::rng::Rng;

const WIDTH: usize = 128;
const PLACES: usize = 32;

#[derive(Debug)]
pub struct Failure {
    pub clause: Clause,
    what: String,
}

impl std::fmt::Display for Failure {
    fn fmt(&self, to: &mut std::fmt::Formatter<'_>) -> std::fmt::Result {
        let words = Clause::ALL.iter().find(|(clause, _)| *clause == self.clause).map_or("", |(_, words)| words);
        write!(to, "not so: {words}\n{}", self.what)
    }
}

/// A pair of events, strict or weak.
type Pair = (usize, usize, bool);

fn pairs(record: &RecordPlan) -> Vec<Pair> {
    let mut pairs = Vec::new();
    for condition in &record.conditions {
        if let (Some(producer), Some(consumer)) = (condition.producer, condition.consumer) {
            pairs.push((producer, consumer, true));
        }
    }
    for mark in &record.marks {
        let condition = &record.conditions[mark.condition];
        match mark.letter {
            'A' => pairs.extend(condition.consumer.map(|consumer| (consumer, mark.event, true))),
            'B' => pairs.extend(condition.producer.map(|producer| (mark.event, producer, false))),
            _ => {
                pairs.extend(condition.producer.map(|producer| (producer, mark.event, true)));
                pairs.extend(condition.consumer.map(|consumer| (mark.event, consumer, false)));
            }
        }
    }
    pairs
}

fn keeps(pairs: &[Pair], line_of: &[usize]) -> bool {
    pairs.iter().all(|(e, f, strict)| if *strict { line_of[*e] < line_of[*f] } else { line_of[*e] <= line_of[*f] })
}

pub struct Trial<'a> {
    pub subject: &'a dyn Subject,
    pub net: &'a NetPlan,
    pub net_text: &'a [u8],
    pub rng: &'a mut Rng,
    pub counts: &'a mut Counts,
}

/// The arrangements that keep a record's order.
#[derive(Default)]
struct Kept {
    arranged: Vec<LineOf>,
    /// The last row that replay wrote of the first of them.
    last_row: Option<Vec<u16>>,
}

impl Trial<'_> {
    /// The clause is judged once more, and must hold.
    fn hold(&mut self, clause: Clause, holds: bool, answer: &Answer, texts: &[&[u8]]) -> Result<(), Failure> {
        *self.counts.judged.entry(clause).or_default() += 1;
        if holds {
            return Ok(());
        }
        let texts: Vec<String> = [self.net_text].iter().chain(texts).map(|text| String::from_utf8_lossy(text).into_owned()).collect();
        Err(Failure { clause, what: format!("{answer:?}\n{}", texts.join("---\n")) })
    }

    /// The record of an enabled step sequence.
    pub fn build(&mut self, steps: &[Vec<usize>]) -> Result<Vec<u8>, Failure> {
        self.counts.runs += 1;
        let (mut out, log) = (vec![0; 48_256], log_text(steps));
        let answer = self.subject.build(self.net_text, &log, &mut out);
        self.hold(Clause::Built, answer.accepted(), &answer, &[&log])?;
        out.truncate(answer.a as usize);
        Ok(out)
    }

    /// One of these steps more after the run: it is built exactly when it is enabled.
    pub fn steps_after(&mut self, steps: &[Vec<usize>], more: &[Vec<usize>]) -> Result<(), Failure> {
        let marking = steps.iter().fold(self.net.tokens.clone(), |marking, step| self.net.fire(&marking, step));
        let mut out = vec![0; 48_256];
        for step in more {
            let log = log_text(&[steps, std::slice::from_ref(step)].concat());
            let answer = self.subject.build(self.net_text, &log, &mut out);
            let number = self.net.refusal(&marking, step);
            let spot = if number == 0 { 0 } else { steps.len() as u64 + 1 };
            self.hold(Clause::Built, (answer.number, answer.spot) == (number, spot), &answer, &[&log])?;
        }
        Ok(())
    }

    /// All clauses for one record, built or changed.
    pub fn record(&mut self, text: &[u8], record: &RecordPlan, built: bool) -> Result<(), Failure> {
        let pairs = pairs(record);
        let mut table = vec![9; 16_384];
        let answer = self.subject.check(self.net_text, text, &mut table);
        if built {
            self.hold(Clause::Accepted, answer.accepted(), &answer, &[text])?;
        }
        if !(31..=35).contains(&answer.number) {
            self.counted(text, record, &answer)?;
        }
        if answer.number != 0 && answer.number != 39 {
            return Ok(());
        }
        let some_keeps = arrangements(record.events.len()).iter().any(|line_of| keeps(&pairs, line_of));
        self.hold(Clause::Process, some_keeps == answer.accepted(), &answer, &[text])?;
        if !answer.accepted() {
            self.counts.cyclic += 1;
            return Ok(());
        }
        self.counts.records += 1;
        self.counts.reading += record.marks.iter().any(|mark| mark.letter == 'R') as usize;
        self.counts.weighted += self.net.weights.iter().any(|((_, t, _), weight)| *weight > 1 && record.events.contains(t)) as usize;
        let kept = self.arrangements(text, record, &pairs)?;
        self.table(text, record, &answer, &table, &kept)?;
        self.arranged(text, record, &pairs, &kept)
    }

    /// Which event is the lowest that does not consume or make, at some place, what the weights say.
    fn counted(&mut self, text: &[u8], record: &RecordPlan, answer: &Answer) -> Result<(), Failure> {
        let of = |place: usize, event: usize, end: fn(&ConditionPlan) -> Option<usize>| record.conditions.iter().filter(|c| c.place == place && end(c) == Some(event)).count();
        let right = |event: usize, place: usize| {
            let t = record.events[event];
            of(place, event, |c| c.consumer) == self.net.weight('I', t, place) && of(place, event, |c| c.producer) == self.net.weight('O', t, place)
        };
        let wrong = (0..record.events.len()).find(|event| !(0..self.net.places()).all(|place| right(*event, place)));
        let refused = (answer.number == 36).then_some(answer.spot as usize);
        self.hold(Clause::Counted, wrong == refused, answer, &[text])
    }

    /// Every arrangement of the events is replayed.
    fn arrangements(&mut self, text: &[u8], record: &RecordPlan, pairs: &[Pair]) -> Result<Kept, Failure> {
        let mut kept = Kept::default();
        let mut rows = vec![9; 4_128];
        for line_of in arrangements(record.events.len()) {
            self.counts.arrangements += 1;
            let mut lines = by_line(line_of);
            lines.iter_mut().for_each(|line| self.rng.shuffle(line));
            let arrangement = arrangement_text(&lines);
            let answer = self.subject.replay(self.net_text, text, &arrangement, &mut rows);
            let number = if keeps(pairs, line_of) { 0 } else { 44 };
            self.hold(Clause::Replayed, answer.number == number, &answer, &[text, &arrangement])?;
            if answer.accepted() {
                self.counts.keeping += 1;
                self.kept(text, record, &lines, &answer, &rows, &mut kept)?;
                kept.arranged.push(line_of.clone());
            }
        }
        Ok(kept)
    }

    /// An arrangement that keeps the order, with the rows that replay wrote of it.
    fn kept(&mut self, text: &[u8], record: &RecordPlan, lines: &[Vec<usize>], answer: &Answer, rows: &[u16], kept: &mut Kept) -> Result<(), Failure> {
        let arrangement = arrangement_text(lines);
        let texts = [text, &arrangement];
        let markings = self.markings(record, lines);
        self.hold(Clause::Enabled, markings.is_some(), answer, &texts)?;
        let last = rows[PLACES * lines.len()..][..PLACES].to_vec();
        let first = kept.last_row.get_or_insert(last.clone()).clone();
        self.hold(Clause::SameEnd, first == last, answer, &texts)?;
        let markings = markings.unwrap_or_default();
        let tokens = |at: usize| markings.get(at / PLACES).and_then(|marking| marking.get(at % PLACES)).copied().unwrap_or(0);
        let right = answer.a as usize == lines.len() && (0..rows.len()).all(|at| rows[at] as usize == tokens(at));
        self.hold(Clause::Markings, right, answer, &texts)
    }

    /// The markings of the lines read as steps, the initial one first; nothing if a step is not enabled.
    fn markings(&self, record: &RecordPlan, lines: &[Vec<usize>]) -> Option<Vec<Marking>> {
        let mut markings = vec![self.net.tokens.clone()];
        for line in lines {
            let step: Vec<usize> = line.iter().map(|event| record.events[*event]).collect();
            let before = markings.last()?;
            if !self.net.enabled(before, &step) {
                return None;
            }
            markings.push(self.net.fire(before, &step));
        }
        Some(markings)
    }

    fn table(&mut self, text: &[u8], record: &RecordPlan, answer: &Answer, table: &[u8], kept: &Kept) -> Result<(), Failure> {
        let events = record.events.len();
        for (e, f) in (0..events).flat_map(|e| (0..events).map(move |f| (e, f))).filter(|(e, f)| e != f) {
            let entry = table[WIDTH * e + f];
            self.hold(Clause::Strict, (entry == 2) == kept.earlier_in_all(e, f), answer, &[text])?;
            self.hold(Clause::NotLater, (entry == 1 || entry == 2) == kept.later_in_none(e, f), answer, &[text])?;
        }
        let of_two = |at: usize| at / WIDTH != at % WIDTH && (at / WIDTH).max(at % WIDTH) < events;
        let zeros = (0..table.len()).all(|at| of_two(at) || table[at] == 0);
        let counts = (events as u64, record.conditions.len() as u64);
        self.hold(Clause::Rest, zeros && (answer.a, answer.b) == counts, answer, &[text])?;
        self.swapped(text, events, answer, table, kept)
    }

    /// Which pairs are independent, by the arrangements that keep the order; where one comes first in some and the other in some,
    /// there is one with both in one step.
    fn swapped(&mut self, text: &[u8], events: usize, answer: &Answer, table: &[u8], kept: &Kept) -> Result<(), Failure> {
        let mut independent = 0;
        let pairs = || (0..events).flat_map(|f| (0..f).map(move |e| (e, f)));
        self.counts.looped += pairs().any(|(e, f)| kept.later_in_none(e, f) && kept.later_in_none(f, e)) as usize;
        for (e, f) in pairs() {
            let (either_first, together) = (kept.earlier_in_some(e, f) && kept.earlier_in_some(f, e), kept.together_in_some(e, f));
            let zeros = table[WIDTH * e + f] == 0 && table[WIDTH * f + e] == 0;
            self.hold(Clause::Swapped, zeros == (either_first && together) && (together || !either_first), answer, &[text])?;
            independent += (either_first && together) as u64;
        }
        self.hold(Clause::Swapped, answer.c == independent, answer, &[text])
    }

    /// What arranging writes.
    fn arranged(&mut self, text: &[u8], record: &RecordPlan, pairs: &[Pair], kept: &Kept) -> Result<(), Failure> {
        let mut out = vec![0; 768];
        let answer = self.subject.arrange(self.net_text, text, &mut out);
        out.truncate(answer.a as usize);
        let line_of = read_arrangement(&out, record.events.len());
        self.hold(Clause::Placed, answer.accepted() && line_of.is_some(), &answer, &[text, &out])?;
        let line_of = line_of.unwrap_or_default();
        self.hold(Clause::Keeps, keeps(pairs, &line_of), &answer, &[text, &out])?;
        let least = kept.arranged.iter().map(|line_of| line_count(line_of)).min();
        let right = line_count(&line_of) == answer.b as usize && least == Some(answer.b as usize);
        self.hold(Clause::Least, right, &answer, &[text, &out])?;
        let replayed = self.subject.replay(self.net_text, text, &out, &mut vec![9; 4_128]);
        self.hold(Clause::Replayed, replayed == Answer::gives(answer.b as usize, 0, 0), &replayed, &[text, &out])
    }

    /// The sequence that a record was built from, as an arrangement of it.
    pub fn own_sequence(&mut self, text: &[u8], record: &RecordPlan, steps: &[Vec<usize>]) -> Result<(), Failure> {
        let line_of: Vec<usize> = steps.iter().enumerate().flat_map(|(line, step)| vec![line; step.len()]).collect();
        let events: Vec<usize> = steps.iter().flatten().copied().collect();
        let own = record.events == events && keeps(&pairs(record), &line_of);
        self.hold(Clause::Own, own, &Answer::default(), &[text, &log_text(steps)])
    }
}

impl Kept {
    fn earlier_in_all(&self, e: usize, f: usize) -> bool {
        self.arranged.iter().all(|line_of| line_of[e] < line_of[f])
    }

    fn later_in_none(&self, e: usize, f: usize) -> bool {
        !self.earlier_in_some(f, e)
    }

    fn earlier_in_some(&self, e: usize, f: usize) -> bool {
        self.arranged.iter().any(|line_of| line_of[e] < line_of[f])
    }

    fn together_in_some(&self, e: usize, f: usize) -> bool {
        self.arranged.iter().any(|line_of| line_of[e] == line_of[f])
    }
}

/// The line of each event; nothing if an event is missing, unknown or repeated, or a line is empty.
fn read_arrangement(text: &[u8], events: usize) -> Option<Vec<usize>> {
    let text = std::str::from_utf8(text).ok()?;
    let mut line_of = vec![None; events];
    for (line, words) in text.lines().enumerate() {
        for word in words.strip_prefix("G,")?.split(',') {
            let event: usize = word.parse().ok()?;
            if line_of.get_mut(event)?.replace(line).is_some() {
                return None;
            }
        }
    }
    line_of.into_iter().collect()
}

#[cfg(test)]
mod tests {
    use super::*;
    use crate::case::Subject;
    use crate::gen::{self, Size, SMALL};
    use crate::sim::{SIMULATOR, TABLE_ROOM};

    /// What the record's own tokens say of an arrangement, without its pairs: when a line begins, all that its events take or
    /// read is there, what they come before (B) has not been made, and what they come after (A) is gone.
    fn plays(record: &RecordPlan, line_of: &[usize]) -> bool {
        by_line(line_of).iter().enumerate().all(|(line, events)| {
            let made = |c: usize| record.conditions[c].producer.is_none_or(|e| line_of[e] < line);
            let gone = |c: usize| record.conditions[c].consumer.is_some_and(|e| line_of[e] < line);
            let taken = (0..record.conditions.len()).filter(|c| record.conditions[*c].consumer.is_some_and(|e| events.contains(&e)));
            let marks = record.marks.iter().filter(|mark| events.contains(&mark.event));
            taken.into_iter().all(|c| made(c) && !gone(c))
                && marks.into_iter().all(|mark| match mark.letter {
                    'A' => gone(mark.condition),
                    'B' => !made(mark.condition),
                    _ => made(mark.condition) && !gone(mark.condition),
                })
        })
    }

    /// The pairs say of every arrangement what the record's own tokens say.
    #[test]
    fn pairs_are_what_the_tokens_say() {
        let size = Size { events: 5, ..SMALL };
        let (mut tried, mut kept) = (0, 0);
        for round in 0..5_000 {
            let mut rng = Rng::for_round(14, round);
            let net = gen::net(&mut rng, size);
            let steps = gen::play(&mut rng, &net, size);
            let mut record = RecordPlan::read(&gen::build(&net.text(), &log_text(&steps)).expect("an enabled step sequence"));
            gen::change(&mut rng, &mut record);
            let answer = SIMULATOR.check(&net.text(), &record.text(), &mut [0; TABLE_ROOM]);
            if ![0, 39].contains(&answer.number) {
                continue;
            }
            for line_of in arrangements(record.events.len()) {
                assert_eq!(plays(&record, line_of), keeps(&pairs(&record), line_of), "round {round}");
                tried += record.marks.iter().any(|mark| mark.letter == 'R') as usize;
                kept += plays(&record, line_of) as usize;
            }
        }
        assert!(tried > 50_000 && kept > 10_000, "{tried} arrangements with readers, {kept} kept");
    }
}
