//! The verified library as one of the implementations that are measured: by its C interface (`pti::sys`), since the safe functions
//! over it make a buffer for each call.

use crate::{Answer, Op, Ops};
use pti::sys;

pub struct Library;

/// The benchmark's form of an answer: the number and the spot, or 0 and the values.
fn answer(r: sys::Answer) -> Answer {
    match r.number {
        0 => [0, r.a, r.b, r.c],
        number => [number, r.spot, 0, 0],
    }
}

// SAFETY of every call: each pointer and length come from one slice, which lives and stays where it is during the call; the
// buffers overlap nothing, and the library keeps no pointer.
impl Ops for Library {
    fn name(&self) -> &'static str {
        "library"
    }
    fn has(&self, _op: Op) -> bool {
        true
    }
    fn read_net(&self, net: &[u8]) -> Answer {
        answer(unsafe { sys::pti_read_net(net.as_ptr(), net.len()) })
    }
    fn build(&self, net: &[u8], log: &[u8], buffer: &mut [u8]) -> Answer {
        answer(unsafe { sys::pti_build(net.as_ptr(), net.len(), log.as_ptr(), log.len(), buffer.as_mut_ptr(), buffer.len()) })
    }
    fn check(&self, net: &[u8], record: &[u8], table: &mut [u8]) -> Answer {
        answer(unsafe { sys::pti_check(net.as_ptr(), net.len(), record.as_ptr(), record.len(), table.as_mut_ptr(), table.len()) })
    }
    fn replay(&self, net: &[u8], record: &[u8], arrangement: &[u8], rows: &mut [u16]) -> Answer {
        let (lines, lines_len) = (arrangement.as_ptr(), arrangement.len());
        answer(unsafe { sys::pti_replay(net.as_ptr(), net.len(), record.as_ptr(), record.len(), lines, lines_len, rows.as_mut_ptr(), rows.len()) })
    }
    fn arrange(&self, net: &[u8], record: &[u8], buffer: &mut [u8]) -> Answer {
        answer(unsafe { sys::pti_arrange(net.as_ptr(), net.len(), record.as_ptr(), record.len(), buffer.as_mut_ptr(), buffer.len()) })
    }
    fn energy(&self, net: &[u8], record: &[u8], energy: &[u8]) -> Answer {
        let r = unsafe { sys::pti_energy(net.as_ptr(), net.len(), record.as_ptr(), record.len(), energy.as_ptr(), energy.len()) };
        match r.number {
            0 => [0, r.usable.to_bits(), r.draw.to_bits(), r.left.to_bits()],
            number => [number, r.spot, 0, 0],
        }
    }
    fn refused_line(&self, net: &[u8], second: &[u8], choice: usize, line: usize) -> Answer {
        let r = unsafe { sys::pti_refused_line(net.as_ptr(), net.len(), second.as_ptr(), second.len(), choice.min(255) as u8, line) };
        match r.number {
            0 => [0, choice as u64, r.a, r.b],
            number => [number, r.spot, 0, 0],
        }
    }
    fn program(&self, input: &[u8], out: &mut [u8]) -> Answer {
        assert!(out.len() >= sys::PROGRAM_BYTES);
        answer(unsafe { sys::pti_program(input.as_ptr(), input.len(), out.as_mut_ptr()) })
    }
}
