//! What an order says of two events, as tables and pictures sign it.

use pti::Relation;

/// Each relation of a first event to a second, its sign, and what it means.
pub const ALL: [(Relation, char, &str); 6] = [
    (Relation::Independent, '∥', "free to swap"),
    (Relation::StrictlyBefore, '<', "strictly before"),
    (Relation::StrictlyAfter, '>', "strictly after"),
    (Relation::NotLater, '≤', "not later"),
    (Relation::NotEarlier, '≥', "not earlier"),
    (Relation::Together, '=', "always in one step"),
];

pub fn sign(relation: Relation) -> char {
    ALL.iter().find(|known| known.0 == relation).expect("every relation has a sign").1
}

#[cfg(test)]
mod tests {
    use super::*;

    #[test]
    fn every_relation_has_a_sign_of_its_own() {
        use Relation::*;
        let signs = [Independent, StrictlyBefore, StrictlyAfter, NotLater, NotEarlier, Together].map(sign);
        assert_eq!(signs, ['∥', '<', '>', '≤', '≥', '=']);
    }
}
