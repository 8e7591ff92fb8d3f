//! Nets and records as values, for the generator and the brute force: made and changed freely, then written as texts.
//! Nothing of the simulator is used here.

use crate::rng::Rng;
use std::collections::BTreeMap;
use std::fmt::Write;

/// Sets of places are bits: bit p is place p.
pub type Places = u32;

pub type Marking = Vec<usize>;

#[derive(Clone, Debug, Default)]
pub struct NetPlan {
    pub tokens: Vec<usize>,
    /// By transition.
    pub inputs: Vec<Places>,
    pub outputs: Vec<Places>,
    pub inhibitors: Vec<Places>,
    /// Places that a transition reads; none of them one of its inputs in a net that is accepted.
    pub reads: Vec<Places>,
    /// The weights that are written, by the letter of the arc (I or O), its transition and its place; every other is 1.
    pub weights: BTreeMap<(char, usize, usize), usize>,
}

impl NetPlan {
    pub fn places(&self) -> usize {
        self.tokens.len()
    }

    pub fn transitions(&self) -> usize {
        self.inputs.len()
    }

    /// The arcs as lines.
    fn arcs(&self) -> Vec<String> {
        let mut arcs = Vec::new();
        for t in 0..self.transitions() {
            for p in 0..self.places() {
                let has = |places: Places| places >> p & 1 == 1;
                let weight = |letter: char| self.weights.get(&(letter, t, p)).map_or(String::new(), |weight| format!(",{weight}"));
                let lines = [
                    (self.inputs[t], format!("I,{p},{t}{}", weight('I'))),
                    (self.outputs[t], format!("O,{t},{p}{}", weight('O'))),
                    (self.inhibitors[t], format!("H,{p},{t}")),
                    (self.reads[t], format!("R,{p},{t}")),
                ];
                arcs.extend(lines.into_iter().filter(|(places, _)| has(*places)).map(|(_, line)| line));
            }
        }
        arcs
    }

    /// Places, transitions, arcs.
    pub fn text(&self) -> Vec<u8> {
        self.lines(self.arcs())
    }

    /// The same net with its arcs in any order.
    pub fn shuffled_text(&self, rng: &mut Rng) -> Vec<u8> {
        let mut arcs = self.arcs();
        rng.shuffle(&mut arcs);
        self.lines(arcs)
    }

    fn lines(&self, arcs: Vec<String>) -> Vec<u8> {
        let places = self.tokens.iter().map(|tokens| format!("P,{tokens}\n"));
        let transitions = self.inputs.iter().map(|_| "T\n".to_string());
        let arcs = arcs.into_iter().map(|arc| arc + "\n");
        places.chain(transitions).chain(arcs).collect::<String>().into_bytes()
    }

    /// How many of the step's events are inhibited by (read) the place.
    fn count(arcs: &[Places], step: &[usize], place: usize) -> usize {
        step.iter().filter(|t| arcs[**t] >> place & 1 == 1).count()
    }

    /// What one event takes from the place (I) or makes there (O).
    pub fn weight(&self, letter: char, transition: usize, place: usize) -> usize {
        let arcs = if letter == 'I' { &self.inputs } else { &self.outputs };
        match arcs[transition] >> place & 1 {
            0 => 0,
            _ => self.weights.get(&(letter, transition, place)).copied().unwrap_or(1),
        }
    }

    /// What the step's events take from the place (I) or make there (O), one after the other.
    fn moved(&self, letter: char, step: &[usize], place: usize) -> usize {
        step.iter().fold(0, |tokens, t| tokens + self.weight(letter, *t, place))
    }

    pub fn enabled(&self, marking: &Marking, step: &[usize]) -> bool {
        self.refusal(marking, step) == 0
    }

    /// 24 if there are too few tokens, else 25 if the step is inhibited, else 0.
    pub fn refusal(&self, marking: &Marking, step: &[usize]) -> u64 {
        let unread = |p: usize| marking[p] == 0 && Self::count(&self.reads, step, p) > 0;
        let short = |p: usize| marking[p] < self.moved('I', step, p) || unread(p);
        let inhibited = |p: usize| marking[p] > 0 && Self::count(&self.inhibitors, step, p) > 0;
        match (0..self.places()).any(short) {
            true => 24,
            false if (0..self.places()).any(inhibited) => 25,
            false => 0,
        }
    }

    /// Is there a step from the initial marking?
    pub fn can_step(&self) -> bool {
        (0..self.transitions()).any(|t| self.enabled(&self.tokens, &[t]))
    }

    /// The marking that an enabled step leaves.
    pub fn fire(&self, marking: &Marking, step: &[usize]) -> Marking {
        let after = |p: usize| marking[p] - self.moved('I', step, p) + self.moved('O', step, p);
        (0..self.places()).map(after).collect()
    }
}

pub fn log_text(steps: &[Vec<usize>]) -> Vec<u8> {
    lines_text('S', steps)
}

pub fn arrangement_text(lines: &[Vec<usize>]) -> Vec<u8> {
    lines_text('G', lines)
}

fn lines_text(letter: char, lines: &[Vec<usize>]) -> Vec<u8> {
    let mut text = String::new();
    for numbers in lines {
        text.push(letter);
        numbers.iter().for_each(|number| write!(text, ",{number}").unwrap());
        text.push('\n');
    }
    text.into_bytes()
}

#[derive(Clone, Debug)]
pub struct ConditionPlan {
    pub place: usize,
    pub producer: Option<usize>,
    pub consumer: Option<usize>,
}

#[derive(Clone, Debug)]
pub struct MarkPlan {
    /// B, A or R.
    pub letter: char,
    pub condition: usize,
    pub event: usize,
}

#[derive(Clone, Debug, Default)]
pub struct RecordPlan {
    pub events: Vec<usize>,
    pub conditions: Vec<ConditionPlan>,
    pub marks: Vec<MarkPlan>,
}

impl RecordPlan {
    /// Reads a record that is known to be well formed.
    pub fn read(text: &[u8]) -> RecordPlan {
        let mut plan = RecordPlan::default();
        let text = std::str::from_utf8(text).expect("a record is plain text");
        for line in text.lines() {
            let words: Vec<&str> = line.split(',').collect();
            let number = |at: usize| words[at].parse::<usize>().expect("a number");
            match words[0] {
                "E" => plan.events.push(number(1)),
                "C" => plan.conditions.push(ConditionPlan { place: number(1), producer: words[2].parse().ok(), consumer: words[3].parse().ok() }),
                "B" => plan.marks.push(MarkPlan { letter: 'B', condition: number(1), event: number(2) }),
                "A" => plan.marks.push(MarkPlan { letter: 'A', condition: number(1), event: number(2) }),
                "R" => plan.marks.push(MarkPlan { letter: 'R', condition: number(1), event: number(2) }),
                other => panic!("no line of a record begins with {other}"),
            }
        }
        plan
    }

    pub fn text(&self) -> Vec<u8> {
        let end = |event: Option<usize>| event.map_or("-".to_string(), |event| event.to_string());
        let mut text = String::new();
        for transition in &self.events {
            writeln!(text, "E,{transition}").unwrap();
        }
        for condition in &self.conditions {
            writeln!(text, "C,{},{},{}", condition.place, end(condition.producer), end(condition.consumer)).unwrap();
        }
        for mark in &self.marks {
            writeln!(text, "{},{},{}", mark.letter, mark.condition, mark.event).unwrap();
        }
        text.into_bytes()
    }

    /// The same record with event e called `names[e]`.
    pub fn rename_events(&mut self, names: &[usize]) {
        let mut events = self.events.clone();
        self.events.iter().enumerate().for_each(|(event, transition)| events[names[event]] = *transition);
        self.events = events;
        for condition in &mut self.conditions {
            condition.producer = condition.producer.map(|event| names[event]);
            condition.consumer = condition.consumer.map(|event| names[event]);
        }
        self.marks.iter_mut().for_each(|mark| mark.event = names[mark.event]);
    }

    /// The same record with condition c called `names[c]`.
    pub fn rename_conditions(&mut self, names: &[usize]) {
        let mut conditions = self.conditions.clone();
        self.conditions.iter().enumerate().for_each(|(number, condition)| conditions[names[number]] = condition.clone());
        self.conditions = conditions;
        self.marks.iter_mut().for_each(|mark| mark.condition = names[mark.condition]);
    }
}
