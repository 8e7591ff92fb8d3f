//! A library behind its C interface: the one linked, or one loaded from a file.

use crate::answer::Answer;
use crate::case::Subject;
use crate::sim::PROGRAM_ROOM;

pub type Text<A> = unsafe extern "C" fn(*const u8, usize) -> A;
pub type Texts<A> = unsafe extern "C" fn(*const u8, usize, *const u8, usize, *mut u8, usize) -> A;
pub type Replay<A> = unsafe extern "C" fn(*const u8, usize, *const u8, usize, *const u8, usize, *mut u16, usize) -> A;
pub type Energy<E> = unsafe extern "C" fn(*const u8, usize, *const u8, usize, *const u8, usize) -> E;
pub type Line<A> = unsafe extern "C" fn(*const u8, usize, *const u8, usize, u8, usize) -> A;
pub type Program<A> = unsafe extern "C" fn(*const u8, usize, *mut u8) -> A;

/// The functions of `include/pti.h`. Those that are linked give the answers of the crate pti, without which the tests must build
/// too; those that are loaded give the simulator's. Hence A and E.
pub struct Library<A, E> {
    pub name: &'static str,
    pub read_net: Text<A>,
    pub build: Texts<A>,
    pub check: Texts<A>,
    pub replay: Replay<A>,
    pub arrange: Texts<A>,
    pub energy: Energy<E>,
    pub refused_line: Line<A>,
    pub program: Program<A>,
}

#[cfg(feature = "lib")]
mod linked {
    use super::Library;
    use crate::answer::{Answer, EnergyAnswer};
    use crate::sim::{ARRANGEMENT_ROOM, PROGRAM_ROOM, RECORD_ROOM, ROWS_ROOM, TABLE_ROOM};
    use pti::sys;

    pub static LINKED: Library<sys::Answer, sys::EnergyAnswer> = Library {
        name: "library",
        read_net: sys::pti_read_net,
        build: sys::pti_build,
        check: sys::pti_check,
        replay: sys::pti_replay,
        arrange: sys::pti_arrange,
        energy: sys::pti_energy,
        refused_line: sys::pti_refused_line,
        program: sys::pti_program,
    };

    impl From<sys::Answer> for Answer {
        fn from(sys::Answer { number, spot, a, b, c }: sys::Answer) -> Answer {
            Answer { number, spot, a, b, c }
        }
    }

    impl From<sys::EnergyAnswer> for Answer {
        fn from(sys::EnergyAnswer { number, spot, usable, draw, left }: sys::EnergyAnswer) -> Answer {
            EnergyAnswer { number, spot, usable, draw, left }.into()
        }
    }

    // The rooms that the crate lends are those by which the simulator says 20, 30, 40 and 50.
    const _: () = assert!(sys::RECORD_BYTES == RECORD_ROOM && sys::TABLE_BYTES == TABLE_ROOM && sys::ROW_COUNTS == ROWS_ROOM);
    const _: () = assert!(sys::ARRANGEMENT_BYTES == ARRANGEMENT_ROOM && sys::PROGRAM_BYTES == PROGRAM_ROOM);
}

#[cfg(feature = "lib")]
pub use linked::LINKED;

// SAFETY of every call: each pointer and length come from one slice, which lives and stays where it is during the call;
// the library keeps no pointer.
impl<A: Into<Answer>, E: Into<Answer>> Subject for Library<A, E> {
    fn name(&self) -> &'static str {
        self.name
    }

    fn read_net(&self, net: &[u8]) -> Answer {
        unsafe { (self.read_net)(net.as_ptr(), net.len()) }.into()
    }

    fn build(&self, net: &[u8], log: &[u8], out: &mut [u8]) -> Answer {
        unsafe { (self.build)(net.as_ptr(), net.len(), log.as_ptr(), log.len(), out.as_mut_ptr(), out.len()) }.into()
    }

    fn check(&self, net: &[u8], record: &[u8], table: &mut [u8]) -> Answer {
        unsafe { (self.check)(net.as_ptr(), net.len(), record.as_ptr(), record.len(), table.as_mut_ptr(), table.len()) }.into()
    }

    fn replay(&self, net: &[u8], record: &[u8], arrangement: &[u8], rows: &mut [u16]) -> Answer {
        let (length, count) = (arrangement.len(), rows.len());
        unsafe { (self.replay)(net.as_ptr(), net.len(), record.as_ptr(), record.len(), arrangement.as_ptr(), length, rows.as_mut_ptr(), count) }.into()
    }

    fn arrange(&self, net: &[u8], record: &[u8], out: &mut [u8]) -> Answer {
        unsafe { (self.arrange)(net.as_ptr(), net.len(), record.as_ptr(), record.len(), out.as_mut_ptr(), out.len()) }.into()
    }

    fn energy(&self, net: &[u8], record: &[u8], energy: &[u8]) -> Answer {
        unsafe { (self.energy)(net.as_ptr(), net.len(), record.as_ptr(), record.len(), energy.as_ptr(), energy.len()) }.into()
    }

    fn refused_line(&self, net: &[u8], second: &[u8], choice: u8, line: u64) -> Answer {
        let line = usize::try_from(line).expect("the library is built for 64 bits");
        unsafe { (self.refused_line)(net.as_ptr(), net.len(), second.as_ptr(), second.len(), choice, line) }.into()
    }

    fn program(&self, input: &[u8], out: &mut [u8; PROGRAM_ROOM]) -> Answer {
        unsafe { (self.program)(input.as_ptr(), input.len(), out.as_mut_ptr()) }.into()
    }
}
