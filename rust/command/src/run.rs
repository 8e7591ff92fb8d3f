//! An accepted net and record as values, for pictures and tables. The library has judged both before, so that a line is in form;
//! nothing here decides anything about a run.

use pti::{Order, Refusal};

/// A net.
#[derive(Clone, Debug, Default, PartialEq, Eq)]
pub struct Net {
    /// The initial tokens of each place.
    pub tokens: Vec<usize>,
    pub transitions: Vec<Transition>,
}

/// The arcs of a transition: places, and weights where arcs have them.
#[derive(Clone, Debug, Default, PartialEq, Eq)]
pub struct Transition {
    pub takes: Vec<(usize, usize)>,
    pub makes: Vec<(usize, usize)>,
    pub inhibitors: Vec<usize>,
    pub reads: Vec<usize>,
}

/// A token, from the event that produced it to the one that consumed it.
#[derive(Clone, Copy, Debug, PartialEq, Eq)]
pub struct Condition {
    pub place: usize,
    /// None: it is initial.
    pub producer: Option<usize>,
    /// None: nobody consumed it.
    pub consumer: Option<usize>,
}

#[derive(Clone, Copy, Debug, PartialEq, Eq, Hash)]
pub enum MarkKind {
    After,
    Before,
    Read,
}

#[derive(Clone, Copy, Debug, PartialEq, Eq)]
pub struct Mark {
    pub kind: MarkKind,
    pub condition: usize,
    pub event: usize,
}

/// A record.
#[derive(Clone, Debug, Default, PartialEq, Eq)]
pub struct Record {
    /// The transition of each event.
    pub events: Vec<usize>,
    pub conditions: Vec<Condition>,
    pub marks: Vec<Mark>,
}

/// A record that the library has accepted, its order and its shortest arrangement.
pub struct Run {
    pub record: Record,
    pub order: Order,
    /// The events of each line.
    pub lines: Vec<Vec<usize>>,
}

impl Run {
    pub fn new(net: &[u8], record: &[u8]) -> Result<Run, Refusal> {
        let order = pti::check(net, record)?;
        let arrangement = pti::arrange(net, record)?;
        Ok(Run { record: Record::of(record), order, lines: arranged(&arrangement.text) })
    }
}

impl Net {
    /// The net of an accepted text.
    pub fn of(text: &[u8]) -> Net {
        let mut net = Net::default();
        for (letter, fields) in rows(text) {
            let [first, second] = [0, 1].map(|k| fields.get(k).copied().flatten().unwrap_or(0));
            let weight = fields.get(2).copied().flatten().unwrap_or(1);
            match letter {
                b'P' => net.tokens.push(first),
                b'T' => net.transitions.push(Transition::default()),
                b'I' => net.transitions[second].takes.push((first, weight)),
                b'O' => net.transitions[first].makes.push((second, weight)),
                b'H' => net.transitions[second].inhibitors.push(first),
                _ => net.transitions[second].reads.push(first),
            }
        }
        net
    }
}

impl Record {
    /// The record of an accepted text.
    pub fn of(text: &[u8]) -> Record {
        let mut record = Record::default();
        for (letter, fields) in rows(text) {
            match (letter, fields.as_slice()) {
                (b'E', &[Some(transition)]) => record.events.push(transition),
                (b'C', &[Some(place), producer, consumer]) => record.conditions.push(Condition { place, producer, consumer }),
                (_, &[Some(condition), Some(event)]) => record.marks.push(Mark { kind: MarkKind::of(letter), condition, event }),
                _ => unreachable!("an accepted record has no such line"),
            }
        }
        record
    }
}

impl MarkKind {
    fn of(letter: u8) -> MarkKind {
        match letter {
            b'A' => MarkKind::After,
            b'B' => MarkKind::Before,
            _ => MarkKind::Read,
        }
    }

    pub fn letter(self) -> char {
        match self {
            MarkKind::After => 'A',
            MarkKind::Before => 'B',
            MarkKind::Read => 'R',
        }
    }
}

/// The events of each line of an arrangement.
pub fn arranged(text: &[u8]) -> Vec<Vec<usize>> {
    rows(text).map(|(_, fields)| fields.into_iter().flatten().collect()).collect()
}

/// The lines of a text that is in form: the letter, and the fields behind it, a dash being none.
fn rows(text: &[u8]) -> impl Iterator<Item = (u8, Vec<Option<usize>>)> + '_ {
    text.split(|byte| *byte == b'\n').filter(|line| !line.is_empty()).map(|line| {
        let line = line.strip_suffix(b"\r").unwrap_or(line);
        let number = |field: &[u8]| std::str::from_utf8(field).ok().and_then(|digits| digits.parse().ok());
        (line[0], line.split(|byte| *byte == b',').skip(1).map(number).collect())
    })
}
