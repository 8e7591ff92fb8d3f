//! The shortest arrangement. An event's line is the greatest number of strict pairs in a chain of the closed order that
//! ends at it; since a chain's weak pairs join with its strict ones in the closed order, that is also the round in which
//! the event is peeled off when each round takes all that have no strict predecessor left.

use super::order::Order;

pub fn lines(order: &Order) -> Vec<Vec<usize>> {
    let mut left: Vec<usize> = (0..order.events()).collect();
    let mut lines = Vec::new();
    while !left.is_empty() {
        let free = |f: &usize| !left.iter().any(|e| order.strictly_before(*e, *f));
        let (line, rest): (Vec<usize>, Vec<usize>) = left.iter().partition(|f| free(f));
        assert!(!line.is_empty(), "39 has been judged");
        lines.push(line);
        left = rest;
    }
    lines
}

pub fn text(lines: &[Vec<usize>]) -> String {
    let word = |event: &usize| format!(",{event}");
    lines.iter().map(|events| format!("G{}\n", events.iter().map(word).collect::<String>())).collect()
}
