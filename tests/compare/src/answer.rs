//! The answer that every operation gives, in the C interface's form.

/// Accepted: `number` and `spot` are 0 and `a`, `b`, `c` hold what the operation returns, unused ones 0.
/// Refused: `number` and `spot` are document 01's, and `a`, `b`, `c` are 0.
#[repr(C)]
#[derive(Clone, Copy, Debug, Default, PartialEq, Eq)]
pub struct Answer {
    pub number: u64,
    pub spot: u64,
    pub a: u64,
    pub b: u64,
    pub c: u64,
}

impl Answer {
    pub fn gives(a: usize, b: usize, c: usize) -> Answer {
        Answer { number: 0, spot: 0, a: a as u64, b: b as u64, c: c as u64 }
    }

    pub fn refuses(number: u64, spot: u64) -> Answer {
        Answer { number, spot, ..Answer::default() }
    }

    /// The bits of usable energy, draw and what is left.
    pub fn energies([a, b, c]: [u64; 3]) -> Answer {
        Answer { number: 0, spot: 0, a, b, c }
    }

    #[allow(dead_code)] // not in mock.rs
    pub fn accepted(&self) -> bool {
        self.number == 0
    }
}

/// The answer of `pti_energy`, which has floats. All else takes it as an `Answer` with their bits, so that no two are the same
/// that differ in any, and minus zero is not zero.
#[repr(C)]
#[derive(Clone, Copy)]
pub struct EnergyAnswer {
    pub number: u64,
    pub spot: u64,
    pub usable: f64,
    pub draw: f64,
    pub left: f64,
}

impl From<EnergyAnswer> for Answer {
    fn from(given: EnergyAnswer) -> Answer {
        let [a, b, c] = [given.usable, given.draw, given.left].map(f64::to_bits);
        Answer { number: given.number, spot: given.spot, a, b, c }
    }
}

impl From<Answer> for EnergyAnswer {
    fn from(answer: Answer) -> EnergyAnswer {
        let [usable, draw, left] = [answer.a, answer.b, answer.c].map(f64::from_bits);
        EnergyAnswer { number: answer.number, spot: answer.spot, usable, draw, left }
    }
}
