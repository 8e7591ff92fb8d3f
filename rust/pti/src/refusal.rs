//! Why a call was refused.

use std::fmt;

/// The text of which a line was refused.
#[derive(Clone, Copy, Debug, PartialEq, Eq, Hash)]
pub enum Text {
    /// Places, transitions and arcs: lines `P`, `T`, `I`, `O`, `H` and `R`.
    Net,
    /// Steps: lines `S`.
    Log,
    /// Events, conditions and marks: lines `E`, `C`, `A`, `B` and `R`.
    Record,
    /// Events in an order: lines `G`.
    Arrangement,
    /// The capacitor and what each transition draws: lines `K`, `J` and `W`.
    Energy,
}

/// Where a refusal was met.
#[derive(Clone, Copy, Debug, PartialEq, Eq, Hash)]
pub enum Spot {
    /// The text or the buffer as a whole.
    Whole,
    /// A line of a text, from 1.
    Line(Text, usize),
    /// A transition of the net, from 0.
    Transition(usize),
    /// A place of the net, from 0.
    Place(usize),
    /// An event of the record, from 0.
    Event(usize),
    /// The number of the line that was asked for.
    Asked(usize),
}

impl Spot {
    /// The number that documents 01 and 02 give it: 0 of a whole.
    ///
    /// # Examples
    /// ```
    /// use pti::{Spot, Text};
    ///
    /// assert_eq!(Spot::Line(Text::Log, 2).number(), 2);
    /// assert_eq!(Spot::Whole.number(), 0);
    /// ```
    pub fn number(&self) -> usize {
        match *self {
            Spot::Whole => 0,
            Spot::Line(_, at) | Spot::Transition(at) | Spot::Place(at) | Spot::Event(at) | Spot::Asked(at) => at,
        }
    }
}

/// `docs/REFUSALS.txt`: a number, what its spot is, what it means.
const TABLE: &str = include_str!("../../../docs/REFUSALS.txt");

/// The enum of refusals and what it takes to tell its cases apart, from one list of the numbers of documents 01 and 02: each with
/// its case and what its spot is.
macro_rules! refusals {
    ($($(#[$doc:meta])* $number:literal $case:ident $(($($spot:tt)*))?;)*) => {
        /// A refusal, with its spot: documents 01 and 02 number them. A request that is yet to land may add some.
        ///
        /// # Examples
        /// ```
        /// use pti::{Refusal, Spot, Text};
        ///
        /// let refusal = pti::read_net(b"P,1\nP,513\n").unwrap_err();
        /// assert_eq!(refusal, Refusal::NetLimit(2));
        /// assert_eq!(refusal.number(), 12);
        /// assert_eq!(refusal.spot(), Spot::Line(Text::Net, 2));
        /// assert_eq!(refusal.sentence(), "limit passed: at most 32 places, 32 transitions and 512 initial tokens in all");
        /// assert_eq!(Refusal::of(12, 2), Some(refusal));
        /// ```
        #[non_exhaustive]
        #[derive(Clone, Copy, Debug, PartialEq, Eq, Hash)]
        pub enum Refusal {
            $($(#[$doc])* $case $(( refusals!(@holds $($spot)*) ))?,)*
        }

        impl Refusal {
            /// The number that documents 01 and 02 give it.
            pub fn number(&self) -> u64 {
                match self {
                    $(Refusal::$case { .. } => $number,)*
                }
            }

            /// Where it was met.
            pub fn spot(&self) -> Spot {
                match *self {
                    $(refusals!(@bound $case at $(($($spot)*))?) => refusals!(@spot at $($($spot)*)?),)*
                }
            }

            /// The refusal of that number at that spot; none if there is no such number.
            pub fn of(number: u64, at: usize) -> Option<Refusal> {
                match number {
                    $($number => Some(refusals!(@made $case at $(($($spot)*))?)),)*
                    _ => None,
                }
            }
        }
    };
    (@holds $($spot:tt)*) => { usize };
    (@bound $case:ident $at:ident) => { Refusal::$case };
    (@bound $case:ident $at:ident ($($spot:tt)*)) => { Refusal::$case($at) };
    (@made $case:ident $at:ident) => { Refusal::$case };
    (@made $case:ident $at:ident ($($spot:tt)*)) => { Refusal::$case($at) };
    (@spot $at:ident) => { Spot::Whole };
    (@spot $at:ident line $text:ident) => { Spot::Line(Text::$text, $at) };
    (@spot $at:ident $kind:ident) => { Spot::$kind($at) };
}

refusals! {
    /// The program's input is over 65,536 bytes or has no line `=`. The program prints it; no function here gives it.
    10 Input;
    /// A line of the net is malformed.
    11 NetLine(line Net);
    /// A line of the net passes a limit: at most 32 places, 32 transitions and 512 initial tokens in all.
    12 NetLimit(line Net);
    /// An arc names a place or a transition that is not declared above it.
    13 Undeclared(line Net);
    /// An arc is there already.
    14 ArcRepeated(line Net);
    /// A transition lacks an input or an output.
    15 ArcMissing(Transition);
    /// The buffer for the record is too short; [`build`](crate::build) lends one that is not.
    20 RecordBuffer;
    /// A line of the log is malformed.
    21 LogLine(line Log);
    /// A line of the log names a transition that the net does not have.
    22 UnknownTransition(line Log);
    /// A line of the log makes it over 128 events.
    23 TooManyEvents(line Log);
    /// A place has too few tokens for a step.
    24 TooFewTokens(line Log);
    /// A place that inhibits one of a step's events is not empty before the step.
    25 Inhibited(line Log);
    /// A line of the log makes it over 512 conditions.
    26 TooManyConditions(line Log);
    /// A line of the log makes it over 4,096 marks.
    27 TooManyMarks(line Log);
    /// The buffer for the order is too short; [`check`](crate::check) lends one that is not.
    30 TableBuffer;
    /// A line of the record is malformed, or its group is out of order.
    31 RecordLine(line Record);
    /// A line of the record passes a limit: at most 128 events, 512 conditions and 4,096 marks.
    32 RecordLimit(line Record);
    /// A line of the record names what is not declared.
    33 RecordUndeclared(line Record);
    /// A condition and an event are marked already.
    34 MarkRepeated(line Record);
    /// A place has more or fewer initial conditions than initial tokens.
    35 InitialCount(Place);
    /// An event consumes or produces other conditions than its transition's arcs say.
    36 EventArcs(Event);
    /// A mark of an event is missing or undue.
    37 EventMarks(Event);
    /// An event has a B mark on an initial condition or an A mark on one that is not consumed.
    38 MarkKind(Event);
    /// An event is strictly before itself.
    39 Circle(Event);
    /// The buffer for the markings is too short; [`replay`](crate::replay) lends one that is not.
    40 RowBuffer;
    /// A line of the arrangement is malformed.
    41 ArrangementLine(line Arrangement);
    /// A line of the arrangement names an event that the record does not have.
    42 UnknownEvent(line Arrangement);
    /// A line of the arrangement has an event that stood already.
    43 EventRepeated(line Arrangement);
    /// A line of the arrangement breaks the order of the record.
    44 OrderBroken(line Arrangement);
    /// The arrangement lacks an event.
    45 EventMissing(Event);
    /// There is no such line.
    46 NoSuchLine(Asked);
    /// The buffer for the arrangement is too short; [`arrange`](crate::arrange) lends one that is not.
    50 ArrangementBuffer;
    /// One place is both read and consumed by one transition.
    51 ReadAndConsumed(line Net);
    /// A line of the energy text is malformed, has the wrong letter or a value out of range.
    52 EnergyLine(line Energy);
    /// The energy text has other than one line for the capacitor and one for each transition.
    53 EnergyLineCount;
    /// The weight of an arc is outside 1 to 16.
    54 Weight(line Net);
}

impl Refusal {
    /// What it means: its sentence of `docs/REFUSALS.txt`.
    pub fn sentence(&self) -> &'static str {
        let number = self.number();
        rows().find(|row| row.0 == number).map_or("", |row| row.2)
    }
}

/// The rows of the table.
fn rows() -> impl Iterator<Item = (u64, &'static str, &'static str)> {
    TABLE.lines().filter_map(|line| {
        let (number, rest) = line.split_once(' ')?;
        let (kind, words) = rest.split_once(' ')?;
        Some((number.parse().ok()?, kind, words.trim_start()))
    })
}

impl fmt::Display for Text {
    fn fmt(&self, out: &mut fmt::Formatter) -> fmt::Result {
        out.write_str(match self {
            Text::Net => "net",
            Text::Log => "log",
            Text::Record => "record",
            Text::Arrangement => "arrangement",
            Text::Energy => "energy text",
        })
    }
}

impl fmt::Display for Spot {
    fn fmt(&self, out: &mut fmt::Formatter) -> fmt::Result {
        match self {
            Spot::Whole => out.write_str("as a whole"),
            Spot::Line(text, line) => write!(out, "line {line} of the {text}"),
            Spot::Transition(transition) => write!(out, "transition {transition}"),
            Spot::Place(place) => write!(out, "place {place}"),
            Spot::Event(event) => write!(out, "event {event}"),
            Spot::Asked(line) => write!(out, "line {line}"),
        }
    }
}

impl fmt::Display for Refusal {
    fn fmt(&self, out: &mut fmt::Formatter) -> fmt::Result {
        write!(out, "refused, {}: {} ({})", self.number(), self.sentence(), self.spot())
    }
}

impl std::error::Error for Refusal {}

#[cfg(test)]
mod tests {
    use super::*;

    /// What the table calls the spot.
    fn kind(spot: Spot) -> &'static str {
        match spot {
            Spot::Whole => "none",
            Spot::Line(Text::Net, _) => "net",
            Spot::Line(Text::Log, _) => "log",
            Spot::Line(Text::Record, _) => "record",
            Spot::Line(Text::Arrangement, _) => "arrangement",
            Spot::Line(Text::Energy, _) => "energy",
            Spot::Transition(_) => "transition",
            Spot::Place(_) => "place",
            Spot::Event(_) => "event",
            Spot::Asked(_) => "asked",
        }
    }

    #[test]
    fn each_row_of_the_table_is_a_refusal() {
        let mut numbers = Vec::new();
        for (number, called, words) in rows() {
            let refusal = Refusal::of(number, 7).unwrap_or_else(|| panic!("no refusal {number}"));
            assert_eq!((refusal.number(), kind(refusal.spot()), refusal.sentence()), (number, called, words));
            assert!(!words.is_empty());
            numbers.push(number);
        }
        assert_eq!(numbers.len(), 36);
    }

    #[test]
    fn each_refusal_has_a_row() {
        let all: Vec<u64> = (0..1000).filter(|number| Refusal::of(*number, 0).is_some()).collect();
        assert_eq!(all.len(), 36);
        for number in all {
            assert_eq!(rows().filter(|row| row.0 == number).count(), 1, "{number}");
        }
    }

    #[test]
    fn spots_are_kept() {
        assert_eq!(Refusal::of(25, 2), Some(Refusal::Inhibited(2)));
        assert_eq!(Refusal::Inhibited(2).spot(), Spot::Line(Text::Log, 2));
        assert_eq!(Refusal::of(36, 0).unwrap().spot(), Spot::Event(0));
        assert_eq!(Refusal::of(53, 0), Some(Refusal::EnergyLineCount));
        assert_eq!(Refusal::of(1, 0), None);
    }
}
