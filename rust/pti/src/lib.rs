//! Run records of PTI-nets: the verified library `libpti.a` from Rust.
//!
//! A function for each operation of documents 01 and 02. Texts are lent as bytes, what is written comes back as a value, and a
//! text that is refused is a [`Refusal`] with its number, its spot and its sentence. Lines of a text end with byte 10 or with
//! bytes 13 and 10; what is written has byte 10 alone.
//!
//! What is proved is the library behind the calls. This crate lends it buffers that are never too short and says what its
//! numbers mean; it is tested, not proved.
//!
//! ```
//! let net = b"P,1\nP,0\nT\nI,0,0\nO,0,1\n";
//! let record = pti::build(net, b"S,0\n")?;
//! assert_eq!(record, b"E,0\nC,0,-,0\nC,1,0,-\n");
//!
//! let order = pti::check(net, &record)?;
//! assert_eq!((order.events(), order.conditions(), order.independent_pairs()), (1, 2, 0));
//!
//! let refusal = pti::build(net, b"S,0\nS,0\n").unwrap_err();
//! assert_eq!(refusal, pti::Refusal::TooFewTokens(2));
//! assert_eq!(refusal.number(), 24);
//! # Ok::<(), pti::Refusal>(())
//! ```

#![warn(missing_docs)]

mod refusal;
pub mod sys;

pub use refusal::{Refusal, Spot, Text};
use std::ops::Range;

/// The most places a net has; a row of markings in the C interface has so many counts.
const MOST_PLACES: usize = 32;
/// The most events a record has; a row of the order in the C interface has so many bytes.
const MOST_EVENTS: usize = 128;

/// The values of an accepted call, or its refusal.
fn values(answer: sys::Answer) -> Result<[usize; 3], Refusal> {
    match answer.number {
        0 => Ok([answer.a, answer.b, answer.c].map(|value| value as usize)),
        number => Err(refusal_of(number, answer.spot)),
    }
}

fn refusal_of(number: u64, spot: u64) -> Refusal {
    Refusal::of(number, spot as usize).unwrap_or_else(|| panic!("libpti refuses with {number}, which this crate does not know"))
}

// SAFETY of every call below: a pointer and its length come from one slice, which stays where it is during the call, and the
// library keeps no pointer. A buffer that is written to overlaps nothing: it was made here.

/// How many places and transitions a net has.
#[derive(Clone, Copy, Debug, PartialEq, Eq)]
pub struct NetSize {
    /// At most 32, numbered from 0.
    pub places: usize,
    /// At most 32, numbered from 0.
    pub transitions: usize,
}

/// Reads a net.
///
/// # Errors
/// 11 to 15, 51 and 54, which are the net's in what follows.
///
/// # Examples
/// ```
/// let size = pti::read_net(b"P,1\nP,0\nT\nI,0,0\nO,0,1\n")?;
/// assert_eq!((size.places, size.transitions), (2, 1));
/// assert_eq!(pti::read_net(b"P,1\nT\n"), Err(pti::Refusal::ArcMissing(0)));
/// # Ok::<(), pti::Refusal>(())
/// ```
pub fn read_net(net: &[u8]) -> Result<NetSize, Refusal> {
    let [places, transitions, _] = values(unsafe { sys::pti_read_net(net.as_ptr(), net.len()) })?;
    Ok(NetSize { places, transitions })
}

/// The record of a step log.
///
/// # Errors
/// The net's, and 21 to 27.
///
/// # Examples
/// ```
/// let net = b"P,1\nP,0\nT\nI,0,0\nO,0,1\n";
/// assert_eq!(pti::build(net, b"S,0\n")?, b"E,0\nC,0,-,0\nC,1,0,-\n");
/// assert_eq!(pti::build(net, b"S,0\nS,1\n"), Err(pti::Refusal::UnknownTransition(2)));
/// # Ok::<(), pti::Refusal>(())
/// ```
pub fn build(net: &[u8], log: &[u8]) -> Result<Vec<u8>, Refusal> {
    let mut out = vec![0; sys::RECORD_BYTES];
    let [bytes, ..] = values(unsafe { sys::pti_build(net.as_ptr(), net.len(), log.as_ptr(), log.len(), out.as_mut_ptr(), out.len()) })?;
    out.truncate(bytes);
    Ok(out)
}

/// What the order of a record says of two different events, the first and the second: what all runs that the record stands for
/// have in common.
#[derive(Clone, Copy, Debug, PartialEq, Eq, Hash)]
pub enum Relation {
    /// The first is in an earlier step, in every run.
    StrictlyBefore,
    /// The second is.
    StrictlyAfter,
    /// The first is in an earlier step or in the same one.
    NotLater,
    /// The second is.
    NotEarlier,
    /// Both are in one step, in every run.
    Together,
    /// Free to swap: some runs have the one first, some the other, some both in one step.
    Independent,
}

/// The order of an accepted record, which [`check`] gives. Events are numbered from 0, as their lines stand in the record.
///
/// # Examples
/// ```
/// // Two tokens, each moved by an event of its own.
/// let net = b"P,2\nP,0\nT\nI,0,0\nO,0,1\n";
/// let order = pti::check(net, &pti::build(net, b"S,0\nS,0\n")?)?;
/// assert_eq!((order.events(), order.conditions(), order.independent_pairs()), (2, 4, 1));
/// # Ok::<(), pti::Refusal>(())
/// ```
#[derive(Clone, PartialEq, Eq)]
pub struct Order {
    table: Vec<u8>,
    events: usize,
    conditions: usize,
    independent_pairs: usize,
}

impl Order {
    /// How many events the record has.
    pub fn events(&self) -> usize {
        self.events
    }

    /// How many conditions the record has.
    pub fn conditions(&self) -> usize {
        self.conditions
    }

    /// How many pairs of events are free to swap.
    pub fn independent_pairs(&self) -> usize {
        self.independent_pairs
    }

    /// 2 if the first event is strictly before the second, 1 if only not later, else 0; 0 also of an event and itself.
    ///
    /// # Panics
    /// If the record does not have both events.
    ///
    /// # Examples
    /// ```
    /// // One token, which each event takes from the event before it.
    /// let net = b"P,1\nT\nI,0,0\nO,0,0\n";
    /// let order = pti::check(net, &pti::build(net, b"S,0\nS,0\n")?)?;
    /// assert_eq!((order.value(0, 1), order.value(1, 0)), (2, 0));
    /// # Ok::<(), pti::Refusal>(())
    /// ```
    pub fn value(&self, first: usize, second: usize) -> u8 {
        assert!(first < self.events && second < self.events, "the record has {} events", self.events);
        self.table[MOST_EVENTS * first + second]
    }

    /// What the order says of two events; none of an event and itself.
    ///
    /// # Panics
    /// If the record does not have both events.
    ///
    /// # Examples
    /// ```
    /// use pti::Relation;
    ///
    /// // A token in place 1, which event 0 makes, inhibits event 1.
    /// let net = b"P,1\nP,0\nT\nT\nP,1\nI,0,0\nO,0,1\nI,2,1\nO,1,2\nH,1,1\n";
    /// let order = pti::check(net, &pti::build(net, b"S,0,1\n")?)?;
    /// assert_eq!(order.relation(0, 1), Some(Relation::NotEarlier));
    /// assert_eq!(order.relation(1, 0), Some(Relation::NotLater));
    /// assert_eq!(order.relation(0, 0), None);
    /// # Ok::<(), pti::Refusal>(())
    /// ```
    pub fn relation(&self, first: usize, second: usize) -> Option<Relation> {
        let values = (self.value(first, second), self.value(second, first));
        if first == second {
            return None;
        }
        Some(match values {
            (2, _) => Relation::StrictlyBefore,
            (_, 2) => Relation::StrictlyAfter,
            (0, 0) => Relation::Independent,
            (_, 0) => Relation::NotLater,
            (0, _) => Relation::NotEarlier,
            _ => Relation::Together,
        })
    }

    /// Are the two events free to swap?
    ///
    /// # Panics
    /// If the record does not have both events.
    ///
    /// # Examples
    /// ```
    /// let net = b"P,2\nP,0\nT\nI,0,0\nO,0,1\n";
    /// let order = pti::check(net, &pti::build(net, b"S,0\nS,0\n")?)?;
    /// assert!(order.independent(0, 1));
    /// # Ok::<(), pti::Refusal>(())
    /// ```
    pub fn independent(&self, first: usize, second: usize) -> bool {
        self.relation(first, second) == Some(Relation::Independent)
    }
}

/// The counts alone: the table is long.
impl std::fmt::Debug for Order {
    fn fmt(&self, out: &mut std::fmt::Formatter) -> std::fmt::Result {
        let Order { events, conditions, independent_pairs, .. } = self;
        write!(out, "Order {{ events: {events}, conditions: {conditions}, independent_pairs: {independent_pairs}, .. }}")
    }
}

/// Checks a proposed record: its order, and how many events, conditions and independent pairs it has.
///
/// # Errors
/// The net's, and 31 to 39.
///
/// # Examples
/// ```
/// let net = b"P,1\nP,0\nT\nI,0,0\nO,0,1\n";
/// assert_eq!(pti::check(net, b"E,0\nC,0,-,0\nC,1,0,-\n")?.events(), 1);
/// // The event makes no token.
/// assert_eq!(pti::check(net, b"E,0\nC,0,-,0\n"), Err(pti::Refusal::EventArcs(0)));
/// # Ok::<(), pti::Refusal>(())
/// ```
pub fn check(net: &[u8], record: &[u8]) -> Result<Order, Refusal> {
    let mut table = vec![0; sys::TABLE_BYTES];
    let answer = unsafe { sys::pti_check(net.as_ptr(), net.len(), record.as_ptr(), record.len(), table.as_mut_ptr(), table.len()) };
    let [events, conditions, independent_pairs] = values(answer)?;
    Ok(Order { table, events, conditions, independent_pairs })
}

/// The shortest arrangement of a record.
#[derive(Clone, Debug, PartialEq, Eq)]
pub struct Arrangement {
    /// Its lines, `G` and events.
    pub text: Vec<u8>,
    /// How many they are.
    pub lines: usize,
}

/// The shortest arrangement of a record: the fewest lines that keep its order.
///
/// # Errors
/// The net's, and 31 to 39.
///
/// # Examples
/// ```
/// let net = b"P,2\nP,0\nT\nI,0,0\nO,0,1\n";
/// let shortest = pti::arrange(net, &pti::build(net, b"S,0\nS,0\n")?)?;
/// assert_eq!((&shortest.text[..], shortest.lines), (&b"G,0,1\n"[..], 1));
/// # Ok::<(), pti::Refusal>(())
/// ```
pub fn arrange(net: &[u8], record: &[u8]) -> Result<Arrangement, Refusal> {
    let mut text = vec![0; sys::ARRANGEMENT_BYTES];
    let answer = unsafe { sys::pti_arrange(net.as_ptr(), net.len(), record.as_ptr(), record.len(), text.as_mut_ptr(), text.len()) };
    let [bytes, lines, _] = values(answer)?;
    text.truncate(bytes);
    Ok(Arrangement { text, lines })
}

/// The markings along an arrangement, which [`replay`] gives.
#[derive(Clone, Debug, PartialEq, Eq)]
pub struct Markings {
    rows: Vec<u16>,
    places: usize,
    lines: usize,
}

impl Markings {
    /// How many lines were played; there is a marking more.
    pub fn lines(&self) -> usize {
        self.lines
    }

    /// The marking after so many lines, by place; after 0 of them it is the net's initial one.
    ///
    /// # Panics
    /// If the arrangement has fewer lines.
    pub fn after(&self, lines: usize) -> &[u16] {
        assert!(lines <= self.lines, "the arrangement has {} lines", self.lines);
        &self.rows[MOST_PLACES * lines..][..self.places]
    }

    /// The initial marking, and the one after each line.
    ///
    /// # Examples
    /// ```
    /// let net = b"P,1\nP,0\nT\nI,0,0\nO,0,1\n";
    /// let markings = pti::replay(net, &pti::build(net, b"S,0\n")?, b"G,0\n")?;
    /// assert_eq!(markings.iter().collect::<Vec<_>>(), [[1, 0], [0, 1]]);
    /// # Ok::<(), pti::Refusal>(())
    /// ```
    pub fn iter(&self) -> impl Iterator<Item = &[u16]> {
        (0..=self.lines).map(|lines| self.after(lines))
    }
}

/// Replays an arrangement of a record: the marking before its first line and after each.
///
/// # Errors
/// The net's, 31 to 39, and 41 to 45.
///
/// # Examples
/// ```
/// let net = b"P,2\nP,0\nT\nI,0,0\nO,0,1\n";
/// let record = pti::build(net, b"S,0,0\n")?;
/// let markings = pti::replay(net, &record, b"G,1\nG,0\n")?;
/// assert_eq!(markings.lines(), 2);
/// assert_eq!(markings.after(0), [2, 0]);
/// assert_eq!(markings.after(1), [1, 1]);
/// assert_eq!(pti::replay(net, &record, b"G,1\n"), Err(pti::Refusal::EventMissing(0)));
/// # Ok::<(), pti::Refusal>(())
/// ```
pub fn replay(net: &[u8], record: &[u8], arrangement: &[u8]) -> Result<Markings, Refusal> {
    let mut rows = vec![0; sys::ROW_COUNTS];
    let (lines_at, lines_len) = (arrangement.as_ptr(), arrangement.len());
    let answer = unsafe { sys::pti_replay(net.as_ptr(), net.len(), record.as_ptr(), record.len(), lines_at, lines_len, rows.as_mut_ptr(), rows.len()) };
    let [lines, ..] = values(answer)?;
    rows.truncate(MOST_PLACES * (lines + 1));
    Ok(Markings { rows, places: read_net(net)?.places, lines })
}

/// The energy of the hold-up capacitor and what the events of a record draw from it, in microjoules.
#[derive(Clone, Copy, Debug, PartialEq)]
pub struct Energies {
    /// What the capacitor gives between full and cutoff.
    pub usable: f64,
    /// The sum over the events, exactly.
    pub draw: f64,
    /// `usable` less `draw`: below 0 where it falls short.
    pub left: f64,
}

/// What the events of a record draw from the hold-up capacitor of an energy text, and what is left.
///
/// The text is a line `K,capacitance,full,cutoff` in microfarads and millivolts and, for each transition of the net, in order, a
/// line `J,microjoules` or `W,milliwatts,milliseconds`.
///
/// # Errors
/// The net's, 31 to 39, 52 and 53.
///
/// # Examples
/// ```
/// let net = b"P,1\nP,0\nT\nI,0,0\nO,0,1\n";
/// let record = pti::build(net, b"S,0\n")?;
/// // 2 µF between 1 V and nothing give 1 µJ; 3 mW for 100 ms draw 300 µJ.
/// let energies = pti::energy(net, &record, b"K,2,1000,0\nW,3,100\n")?;
/// assert_eq!((energies.usable, energies.draw, energies.left), (1.0, 300.0, -299.0));
/// # Ok::<(), pti::Refusal>(())
/// ```
pub fn energy(net: &[u8], record: &[u8], energy: &[u8]) -> Result<Energies, Refusal> {
    let answer = unsafe { sys::pti_energy(net.as_ptr(), net.len(), record.as_ptr(), record.len(), energy.as_ptr(), energy.len()) };
    match answer.number {
        0 => Ok(Energies { usable: answer.usable, draw: answer.draw, left: answer.left }),
        number => Err(refusal_of(number, answer.spot)),
    }
}

/// Which of two texts a line is asked of.
#[derive(Clone, Copy, Debug, PartialEq, Eq, Hash)]
pub enum Choice {
    /// Of the net.
    Net,
    /// Of the log, the record, the arrangement or the energy text: whichever was lent.
    Second,
}

/// Where a line of the net or of a second text stands, counted from 1, without its ending.
///
/// # Errors
/// 46: the text has no such line.
///
/// # Examples
/// ```
/// use pti::{Choice, Refusal, Spot, Text};
///
/// let (net, log) = (b"P,1\nP,0\nT\nI,0,0\nO,0,1\n", b"S,0\r\nS,9\r\n");
/// let refusal = pti::build(net, log).unwrap_err();
/// assert_eq!(refusal.spot(), Spot::Line(Text::Log, 2));
///
/// let range = pti::refused_line(net, log, Choice::Second, 2)?;
/// assert_eq!(&log[range], b"S,9");
/// assert_eq!(pti::refused_line(net, log, Choice::Net, 6), Err(Refusal::NoSuchLine(6)));
/// # Ok::<(), Refusal>(())
/// ```
pub fn refused_line(net: &[u8], second: &[u8], choice: Choice, line: usize) -> Result<Range<usize>, Refusal> {
    let number = match choice {
        Choice::Net => 0,
        Choice::Second => 1,
    };
    let answer = unsafe { sys::pti_refused_line(net.as_ptr(), net.len(), second.as_ptr(), second.len(), number, line) };
    let [start, length, _] = values(answer)?;
    Ok(start..start + length)
}

/// What the program prints for an input, a net, a line `=` and a log: the record and its summary, or the line `X` of a refusal.
///
/// # Examples
/// ```
/// let net = "P,1\nP,0\nT\nI,0,0\nO,0,1\n";
/// // Events, conditions, independent pairs, lines of the shortest arrangement.
/// assert_eq!(pti::program(format!("{net}=\nS,0\n").as_bytes()), b"E,0\nC,0,-,0\nC,1,0,-\nZ,1,2,0,1\n");
/// assert_eq!(pti::program(format!("{net}=\nS,0\nS,0\n").as_bytes()), b"X,24,2\n");
/// ```
pub fn program(input: &[u8]) -> Vec<u8> {
    let mut out = vec![0; sys::PROGRAM_BYTES];
    let answer = unsafe { sys::pti_program(input.as_ptr(), input.len(), out.as_mut_ptr()) };
    out.truncate(answer.a as usize);
    out
}
