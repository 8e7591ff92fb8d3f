//! The net reader: refusals 11 to 15, 51 and 54.

use super::text::{lines, words, Field, Words};
use super::{refuse, Refusal, Requests, PLACES, TOKENS, TRANSITIONS, WEIGHT};

/// The places at the ends of its arcs, ascending. A weight is no number here: the place of an arc stands in the list as many
/// times as the arc's weight says, once for each condition that an event consumes or makes.
#[derive(Clone, Debug, Default)]
pub struct Transition {
    pub inputs: Vec<usize>,
    pub outputs: Vec<usize>,
    pub inhibitors: Vec<usize>,
    /// Places that must have a token before the step, which is not taken.
    pub reads: Vec<usize>,
}

#[derive(Clone, Debug, Default)]
pub struct Net {
    /// Initial tokens by place.
    pub tokens: Vec<usize>,
    pub transitions: Vec<Transition>,
    /// Which lines there are, in the net and in its records.
    pub requests: Requests,
}

pub fn read(requests: Requests, text: &[u8]) -> Result<Net, Refusal> {
    let mut net = Net { requests, ..Net::default() };
    for line in lines(requests, text) {
        let number = match words(&line) {
            Some(words) => net.declare(&words),
            None => 11,
        };
        if number != 0 {
            return refuse(number, line.number);
        }
    }
    let lacking = |transition: &Transition| transition.inputs.is_empty() || transition.outputs.is_empty();
    match net.transitions.iter().position(lacking) {
        Some(transition) => refuse(15, transition as u64),
        None => Ok(net),
    }
}

impl Net {
    /// Takes one line in; 0, or the number with which the line is refused.
    fn declare(&mut self, words: &Words) -> u64 {
        match (words.letter, words.fields.as_slice()) {
            ('P', [Field::Number(tokens)]) => self.place(*tokens),
            ('T', []) => self.transition(),
            ('O', [Field::Number(transition), Field::Number(place), weight @ ..]) => self.weighted('O', *place, *transition, weight),
            ('I', [Field::Number(place), Field::Number(transition), weight @ ..]) => self.weighted('I', *place, *transition, weight),
            ('H', [Field::Number(place), Field::Number(transition)]) => self.arc('H', *place, *transition, 1),
            ('R', [Field::Number(place), Field::Number(transition)]) if self.requests.read_arcs => self.arc('R', *place, *transition, 1),
            _ => 11,
        }
    }

    /// An arc that may have a weight: what stands behind its ends.
    fn weighted(&mut self, letter: char, place: usize, transition: usize, fields: &[Field]) -> u64 {
        match fields {
            [] => self.arc(letter, place, transition, 1),
            [Field::Number(weight)] if self.requests.weights => self.arc(letter, place, transition, *weight),
            _ => 11,
        }
    }

    fn place(&mut self, tokens: usize) -> u64 {
        self.tokens.push(tokens);
        let passed = self.tokens.len() > PLACES || self.tokens.iter().sum::<usize>() > TOKENS;
        if passed { 12 } else { 0 }
    }

    fn transition(&mut self) -> u64 {
        self.transitions.push(Transition::default());
        if self.transitions.len() > TRANSITIONS { 12 } else { 0 }
    }

    fn arc(&mut self, letter: char, place: usize, transition: usize, weight: usize) -> u64 {
        if place >= self.tokens.len() || transition >= self.transitions.len() {
            return 13;
        }
        if !(1..=WEIGHT).contains(&weight) {
            return 54;
        }
        let arcs = &mut self.transitions[transition];
        let ends = match letter {
            'I' => &mut arcs.inputs,
            'O' => &mut arcs.outputs,
            'R' => &mut arcs.reads,
            _ => &mut arcs.inhibitors,
        };
        if ends.contains(&place) {
            return 14;
        }
        ends.extend(vec![place; weight]);
        ends.sort_unstable();
        // Of no other place is it so: the line above would have been refused.
        if arcs.inputs.contains(&place) && arcs.reads.contains(&place) { 51 } else { 0 }
    }
}
