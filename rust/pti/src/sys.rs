//! The C interface of the library, `include/pti.h`, as it stands there: what the safe functions of this crate call. For callers
//! who lend buffers of their own, as the tests do.
//!
//! # Safety
//! Of every function: no pointer is null, not even that of an empty text; behind a pointer are as many elements as the length
//! beside it says; and a buffer, which is what is written to, overlaps nothing else that is lent. No pointer is kept.

/// `pti_answer`: number and spot are 0 where a call is accepted, and a, b and c where it is refused, and where nothing is said of
/// them.
#[repr(C)]
#[derive(Clone, Copy, Debug, PartialEq, Eq)]
pub struct Answer {
    /// The refusal's number.
    pub number: u64,
    /// Where it was met.
    pub spot: u64,
    /// The first value that the call gives.
    pub a: u64,
    /// The second.
    pub b: u64,
    /// The third.
    pub c: u64,
}

/// `pti_energy_answer`: the three are 0 where the call is refused.
#[repr(C)]
#[derive(Clone, Copy, Debug, PartialEq)]
pub struct EnergyAnswer {
    /// The refusal's number.
    pub number: u64,
    /// Where it was met.
    pub spot: u64,
    /// What the capacitor gives between full and cutoff, in microjoules.
    pub usable: f64,
    /// What the events draw.
    pub draw: f64,
    /// `usable` less `draw`.
    pub left: f64,
}

/// A buffer for a record of so many bytes is never too short.
pub const RECORD_BYTES: usize = 48_256;
/// A buffer for the order of so many bytes is never too short.
pub const TABLE_BYTES: usize = 16_384;
/// A buffer for markings of so many counts is never too short.
pub const ROW_COUNTS: usize = 4_128;
/// A buffer for the shortest arrangement of so many bytes is never too short.
pub const ARRANGEMENT_BYTES: usize = 768;
/// The program's buffer has just so many bytes.
pub const PROGRAM_BYTES: usize = 48_275;

extern "C" {
    /// a: places, b: transitions.
    pub fn pti_read_net(net: *const u8, net_len: usize) -> Answer;
    /// a: bytes written.
    pub fn pti_build(net: *const u8, net_len: usize, log: *const u8, log_len: usize, out: *mut u8, out_len: usize) -> Answer;
    /// The order: at 128 * e + f, 2 if e is strictly before f, 1 if only not later, else 0. a: events, b: conditions, c: independent
    /// pairs.
    pub fn pti_check(net: *const u8, net_len: usize, record: *const u8, record_len: usize, table: *mut u8, table_len: usize) -> Answer;
    /// The markings: row k's count of place p at 32 * k + p. a: lines played.
    pub fn pti_replay(
        net: *const u8,
        net_len: usize,
        record: *const u8,
        record_len: usize,
        arrangement: *const u8,
        arrangement_len: usize,
        rows: *mut u16,
        rows_len: usize,
    ) -> Answer;
    /// a: bytes written, b: lines.
    pub fn pti_arrange(net: *const u8, net_len: usize, record: *const u8, record_len: usize, out: *mut u8, out_len: usize) -> Answer;
    /// The energies of a record by an energy text.
    pub fn pti_energy(net: *const u8, net_len: usize, record: *const u8, record_len: usize, energy: *const u8, energy_len: usize) -> EnergyAnswer;
    /// A line of the net (choice 0) or the second text (choice 1). a: its start, b: its length without its ending.
    pub fn pti_refused_line(net: *const u8, net_len: usize, second: *const u8, second_len: usize, choice: u8, line: usize) -> Answer;
    /// out has `PROGRAM_BYTES` bytes. a: bytes written. Never refused.
    pub fn pti_program(input: *const u8, input_len: usize, out: *mut u8) -> Answer;
}
