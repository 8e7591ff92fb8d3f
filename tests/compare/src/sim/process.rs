//! The rules that make a record a process: refusals 35 to 39, each over the whole record before the next.

use super::net::Net;
use super::order::{Order, Pair};
use super::record::{Condition, Kind, Mark, Record};
use super::{refuse, Refusal};

/// The closed order of a process.
pub fn judge(net: &Net, record: &Record) -> Result<Order, Refusal> {
    initial_counts(net, record)?;
    inputs_and_outputs(net, record)?;
    due_marks(net, record)?;
    mark_kinds(record)?;
    let order = Order::close(record.events.len(), &pairs(record));
    match (0..order.events()).find(|event| order.strictly_before(*event, *event)) {
        Some(event) => refuse(39, event as u64),
        None => Ok(order),
    }
}

fn initial_counts(net: &Net, record: &Record) -> Result<(), Refusal> {
    let mut left: Vec<isize> = net.tokens.iter().map(|tokens| *tokens as isize).collect();
    let initial = record.conditions.iter().filter(|condition| condition.producer.is_none());
    initial.for_each(|condition| left[condition.place] -= 1);
    match left.iter().position(|count| *count != 0) {
        Some(place) => refuse(35, place as u64),
        None => Ok(()),
    }
}

/// The places of the conditions that belong to each event, ascending and with repeats.
fn places_by_event(record: &Record, owner: impl Fn(&Condition) -> Option<usize>) -> Vec<Vec<usize>> {
    let mut places = vec![Vec::new(); record.events.len()];
    for condition in &record.conditions {
        if let Some(event) = owner(condition) {
            places[event].push(condition.place);
        }
    }
    places.iter_mut().for_each(|list| list.sort_unstable());
    places
}

fn inputs_and_outputs(net: &Net, record: &Record) -> Result<(), Refusal> {
    let consumed = places_by_event(record, |condition| condition.consumer);
    let produced = places_by_event(record, |condition| condition.producer);
    for (event, transition) in record.events.iter().enumerate() {
        let arcs = &net.transitions[*transition];
        if !arcs.inputs.iter().eq(&consumed[event]) || !arcs.outputs.iter().eq(&produced[event]) {
            return refuse(36, event as u64);
        }
    }
    Ok(())
}

/// What is marked by event, ascending and with repeats: the conditions of its B and A marks, and the places of its R marks.
fn marked_by_event(record: &Record) -> (Vec<Vec<usize>>, Vec<Vec<usize>>) {
    let mut marked = vec![Vec::new(); record.events.len()];
    let mut read = marked.clone();
    for mark in &record.marks {
        match mark.kind {
            Kind::Before | Kind::After => marked[mark.event].push(mark.condition),
            Kind::Read => read[mark.event].push(record.conditions[mark.condition].place),
        }
    }
    marked.iter_mut().chain(&mut read).for_each(|list| list.sort_unstable());
    (marked, read)
}

fn due_marks(net: &Net, record: &Record) -> Result<(), Refusal> {
    let (marked, read) = marked_by_event(record);
    for (event, transition) in record.events.iter().enumerate() {
        let arcs = &net.transitions[*transition];
        let due = |condition: &Condition| arcs.inhibitors.contains(&condition.place) && condition.producer != Some(event);
        let due = (0..record.conditions.len()).filter(|condition| due(&record.conditions[*condition]));
        if !due.eq(marked[event].iter().copied()) {
            return refuse(37, event as u64);
        }
        if !arcs.reads.iter().eq(&read[event]) {
            return refuse(37, event as u64);
        }
    }
    Ok(())
}

fn mark_kinds(record: &Record) -> Result<(), Refusal> {
    let wrong = |mark: &&Mark| {
        let condition = record.conditions[mark.condition];
        match mark.kind {
            Kind::Before => condition.producer.is_none(),
            Kind::After => condition.consumer.is_none(),
            Kind::Read => false,
        }
    };
    match record.marks.iter().filter(wrong).map(|mark| mark.event).min() {
        Some(event) => refuse(38, event as u64),
        None => Ok(()),
    }
}

fn pairs(record: &Record) -> Vec<Pair> {
    let mut pairs = Vec::new();
    for condition in &record.conditions {
        if let (Some(from), Some(to)) = (condition.producer, condition.consumer) {
            pairs.push(Pair { from, to, strict: true });
        }
    }
    for mark in &record.marks {
        let condition = record.conditions[mark.condition];
        match (mark.kind, condition.producer, condition.consumer) {
            (Kind::After, _, Some(from)) => pairs.push(Pair { from, to: mark.event, strict: true }),
            (Kind::Before, Some(to), _) => pairs.push(Pair { from: mark.event, to, strict: false }),
            (Kind::Read, producer, consumer) => {
                pairs.extend(producer.map(|from| Pair { from, to: mark.event, strict: true }));
                pairs.extend(consumer.map(|to| Pair { from: mark.event, to, strict: false }));
            }
            _ => unreachable!("38 has been judged"),
        }
    }
    pairs
}
