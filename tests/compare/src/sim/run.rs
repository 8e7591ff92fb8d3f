//! Logs, steps and building: refusals 21 to 27 and the record that document 01 names.

use super::net::{Net, Transition};
use super::record::{Condition, Kind, Mark, Record};
use super::text::{lines, numbers_after};
use super::{refuse, Refusal, CONDITIONS, EVENTS, MARKS};

/// An accepted log: the transitions of each step.
pub struct Run {
    steps: Vec<Vec<usize>>,
}

/// What playing needs to know of the steps so far, as counts by place.
struct Tally {
    events: usize,
    marking: Vec<usize>,
    /// Conditions that ever were: initial tokens and all made.
    conditions: Vec<usize>,
    /// Events whose transition the place inhibits.
    watched: Vec<usize>,
    /// Conditions of a place that inhibits their own producer: no mark is due there.
    own: usize,
    /// Tokens read, one for each event and place that it reads: a mark is due for each.
    read: usize,
}

pub fn read(net: &Net, log: &[u8]) -> Result<Run, Refusal> {
    let mut tally = Tally::start(net);
    let mut steps = Vec::new();
    for line in lines(net.requests, log) {
        let Some(step) = numbers_after('S', &line) else {
            return refuse(21, line.number);
        };
        let number = tally.judge(net, &step);
        if number != 0 {
            return refuse(number, line.number);
        }
        steps.push(step);
    }
    Ok(Run { steps })
}

/// The arcs' ends of a step's events: a place stands there once for each condition that an event consumes or makes.
fn ends<'a>(net: &'a Net, step: &'a [usize], arcs: impl Fn(&'a Transition) -> Vec<usize>) -> Vec<usize> {
    step.iter().flat_map(|transition| arcs(&net.transitions[*transition])).collect()
}

/// How often each place is named.
fn counts(net: &Net, places: &[usize]) -> Vec<usize> {
    let mut counts = vec![0; net.tokens.len()];
    places.iter().for_each(|place| counts[*place] += 1);
    counts
}

impl Tally {
    fn start(net: &Net) -> Tally {
        let none = vec![0; net.tokens.len()];
        Tally { events: 0, marking: net.tokens.clone(), conditions: net.tokens.clone(), watched: none, own: 0, read: 0 }
    }

    /// Plays one step; 0, or the number from 22 to 27 with which it is refused.
    fn judge(&mut self, net: &Net, step: &[usize]) -> u64 {
        if step.iter().any(|transition| *transition >= net.transitions.len()) {
            return 22;
        }
        if self.events + step.len() > EVENTS {
            return 23;
        }
        let taken = ends(net, step, |transition| transition.inputs.iter().copied().collect());
        let made = ends(net, step, |transition| transition.outputs.iter().copied().collect());
        let watched = ends(net, step, |transition| transition.inhibitors.iter().copied().collect());
        let read = ends(net, step, |transition| transition.reads.iter().copied().collect());
        if counts(net, &taken).iter().zip(&self.marking).any(|(wanted, tokens)| wanted > tokens) {
            return 24;
        }
        if read.iter().any(|place| self.marking[*place] == 0) {
            return 24;
        }
        if watched.iter().any(|place| self.marking[*place] > 0) {
            return 25;
        }
        self.own += step.iter().map(|transition| own_outputs(&net.transitions[*transition])).sum::<usize>();
        self.read += read.len();
        self.play(step.len(), &taken, &made, &watched);
        self.limit()
    }

    fn play(&mut self, events: usize, taken: &[usize], made: &[usize], watched: &[usize]) {
        self.events += events;
        taken.iter().for_each(|place| self.marking[*place] -= 1);
        made.iter().for_each(|place| self.marking[*place] += 1);
        made.iter().for_each(|place| self.conditions[*place] += 1);
        watched.iter().for_each(|place| self.watched[*place] += 1);
    }

    fn limit(&self) -> u64 {
        if self.conditions.iter().sum::<usize>() > CONDITIONS {
            return 26;
        }
        if self.marks() > MARKS {
            return 27;
        }
        0
    }

    /// The marks due in the record of the steps so far.
    fn marks(&self) -> usize {
        let pairs = self.conditions.iter().zip(&self.watched).map(|(conditions, events)| conditions * events);
        pairs.sum::<usize>() - self.own + self.read
    }
}

fn own_outputs(transition: &Transition) -> usize {
    transition.outputs.iter().filter(|place| transition.inhibitors.contains(place)).count()
}

/// How often the place stands in the list: the weight of the arc, or 0 without one.
fn tokens(places: &[usize], place: usize) -> usize {
    places.iter().filter(|other| **other == place).count()
}

impl Run {
    pub fn record(&self, net: &Net) -> Record {
        let events: Vec<usize> = self.steps.iter().flatten().copied().collect();
        let mut conditions = made(net, &events);
        consume(net, &events, &mut conditions);
        let marks = self.marks(net, &events, &conditions);
        Record { events, conditions, marks }
    }

    /// The step of each event.
    fn step_of(&self) -> Vec<usize> {
        let numbered = self.steps.iter().enumerate();
        numbered.flat_map(|(number, step)| vec![number; step.len()]).collect()
    }

    /// By event, then condition.
    fn marks(&self, net: &Net, events: &[usize], conditions: &[Condition]) -> Vec<Mark> {
        let mut marks = self.inhibition(net, events, conditions);
        marks.extend(self.reads(net, events, conditions));
        // A stable sort: on one condition B and A come first.
        marks.sort_by_key(|mark| (mark.event, mark.condition));
        marks
    }

    /// By rank: the conditions of a place that are gone when a step begins are its first ones, as many as the events of the
    /// steps before took from it, by weight; the one behind them is the lowest that holds, and one is read, whatever the weights.
    fn reads(&self, net: &Net, events: &[usize], conditions: &[Condition]) -> Vec<Mark> {
        let step_of = self.step_of();
        let mut marks = Vec::new();
        for (event, transition) in events.iter().enumerate() {
            for place in &net.transitions[*transition].reads {
                let took = |other: &usize| step_of[*other] < step_of[event] && net.transitions[events[*other]].inputs.contains(place);
                let gone: usize = (0..events.len()).filter(took).map(|other| tokens(&net.transitions[events[other]].inputs, *place)).sum();
                let condition = (0..conditions.len()).filter(|condition| conditions[*condition].place == *place).nth(gone);
                marks.push(Mark { kind: Kind::Read, condition: condition.expect("24 has been judged"), event });
            }
        }
        marks
    }

    fn inhibition(&self, net: &Net, events: &[usize], conditions: &[Condition]) -> Vec<Mark> {
        let step_of = self.step_of();
        let mut marks = Vec::new();
        for (event, transition) in events.iter().enumerate() {
            let inhibitors = &net.transitions[*transition].inhibitors;
            for (condition, found) in conditions.iter().enumerate() {
                if !inhibitors.contains(&found.place) || found.producer == Some(event) {
                    continue;
                }
                let gone = found.consumer.is_some_and(|consumer| step_of[consumer] < step_of[event]);
                let kind = if gone { Kind::After } else { Kind::Before };
                marks.push(Mark { kind, condition, event });
            }
        }
        marks
    }
}

/// The conditions in their order, none consumed yet.
fn made(net: &Net, events: &[usize]) -> Vec<Condition> {
    let initial = net.tokens.iter().enumerate().flat_map(|(place, tokens)| vec![(place, None); *tokens]);
    let outputs = events.iter().enumerate().flat_map(|(event, transition)| {
        net.transitions[*transition].outputs.iter().map(move |place| (*place, Some(event)))
    });
    initial.chain(outputs).map(|(place, producer)| Condition { place, producer, consumer: None }).collect()
}

/// By rank: what was taken from a place is always the first part of its conditions, since new ones have higher numbers
/// and the lowest are taken; so in event order the k-th taker of a place takes its k-th condition, where an event is so many
/// takers as the weight of its arc says.
fn consume(net: &Net, events: &[usize], conditions: &mut [Condition]) {
    for place in 0..net.tokens.len() {
        let takes = |event: usize| vec![event; tokens(&net.transitions[events[event]].inputs, place)];
        let takers = (0..events.len()).flat_map(takes);
        let held = conditions.iter_mut().filter(|condition| condition.place == place);
        for (condition, event) in held.zip(takers) {
            condition.consumer = Some(event);
        }
    }
}
