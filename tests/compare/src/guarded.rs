//! Memory: a subject whose texts and buffers lie against pages that may not be touched. Each call is made twice, with such a
//! page directly behind every lent part and directly in front of it; texts may only be read. An access outside ends the run.

mod fence;
mod planted;
mod stack;

use crate::answer::Answer;
use crate::case::{whole, Subject};
use crate::sim::PROGRAM_ROOM;
use fence::{Fence, Side};
pub use planted::{plant, planted_are_seen};
pub use stack::stacks;
use std::cell::RefCell;
use std::slice::{from_raw_parts, from_raw_parts_mut};

/// As long as the longest text, or buffer, of any case.
const ROOM: usize = 1 << 20;

pub struct Guarded<'a> {
    subject: &'a dyn Subject,
    fences: RefCell<Fences>,
}

struct Fences {
    texts: [Fence; 3],
    buffer: Fence,
}

impl<'a> Guarded<'a> {
    pub fn new(subject: &'a dyn Subject) -> Guarded<'a> {
        fence::tell_of_accesses();
        let fences = Fences { texts: [(); 3].map(|_| Fence::new(ROOM)), buffer: Fence::new(ROOM) };
        Guarded { subject, fences: RefCell::new(fences) }
    }

    /// The call on guarded copies, on either side; both must come out the same.
    fn call<T: Copy + PartialEq>(&self, name: &'static str, texts: &[&[u8]], buffer: &mut [T], call: impl Fn(&[&[u8]], &mut [T]) -> Answer) -> Answer {
        let fences = &mut *self.fences.borrow_mut();
        let (behind, left_behind) = fences.guarded(name, texts, buffer, Side::Behind, &call);
        let (front, left_front) = fences.guarded(name, texts, buffer, Side::Front, &call);
        assert!(behind == front && left_behind == left_front, "{name} depends on where its texts and buffers lie");
        buffer.copy_from_slice(&left_behind);
        behind
    }
}

impl Fences {
    /// The answer, and what is left in the buffer.
    fn guarded<T: Copy>(&mut self, name: &'static str, texts: &[&[u8]], buffer: &[T], side: Side, call: impl Fn(&[&[u8]], &mut [T]) -> Answer) -> (Answer, Vec<T>) {
        let held: Vec<&[u8]> = self.texts.iter_mut().zip(texts).map(|(fence, text)| fence.hold(text, side)).collect();
        let lent = self.buffer.lend(buffer, side);
        fence::say_before(name, &held);
        let answer = call(&held, lent);
        fence::say_before("nothing", &[]);
        let left = lent.to_vec();
        (answer, left)
    }
}

impl Subject for Guarded<'_> {
    fn name(&self) -> &'static str {
        self.subject.name()
    }

    fn read_net(&self, net: &[u8]) -> Answer {
        self.call::<u8>("read_net", &[net], &mut [], |texts, _| self.subject.read_net(texts[0]))
    }

    fn build(&self, net: &[u8], log: &[u8], out: &mut [u8]) -> Answer {
        self.call("build", &[net, log], out, |texts, out| self.subject.build(texts[0], texts[1], out))
    }

    fn check(&self, net: &[u8], record: &[u8], table: &mut [u8]) -> Answer {
        self.call("check", &[net, record], table, |texts, table| self.subject.check(texts[0], texts[1], table))
    }

    fn replay(&self, net: &[u8], record: &[u8], arrangement: &[u8], rows: &mut [u16]) -> Answer {
        self.call("replay", &[net, record, arrangement], rows, |texts, rows| self.subject.replay(texts[0], texts[1], texts[2], rows))
    }

    fn arrange(&self, net: &[u8], record: &[u8], out: &mut [u8]) -> Answer {
        self.call("arrange", &[net, record], out, |texts, out| self.subject.arrange(texts[0], texts[1], out))
    }

    fn energy(&self, net: &[u8], record: &[u8], energy: &[u8]) -> Answer {
        self.call::<u8>("energy", &[net, record, energy], &mut [], |texts, _| self.subject.energy(texts[0], texts[1], texts[2]))
    }

    fn refused_line(&self, net: &[u8], second: &[u8], choice: u8, line: u64) -> Answer {
        self.call::<u8>("refused_line", &[net, second], &mut [], |texts, _| self.subject.refused_line(texts[0], texts[1], choice, line))
    }

    fn program(&self, input: &[u8], out: &mut [u8; PROGRAM_ROOM]) -> Answer {
        self.call("program", &[input], out, |texts, out| self.subject.program(texts[0], whole(out)))
    }
}

impl Fence {
    /// A copy of the text against the fence, to be read only.
    fn hold(&mut self, text: &[u8], side: Side) -> &[u8] {
        self.let_write(true);
        let start = self.place(text.len(), side);
        // SAFETY: the place has room for the text, nothing else is there, and it is not written to as long as it is held.
        unsafe {
            start.copy_from_nonoverlapping(text.as_ptr(), text.len());
            self.let_write(false);
            from_raw_parts(start, text.len())
        }
    }

    /// A copy of the buffer against the fence.
    fn lend<T: Copy>(&mut self, buffer: &[T], side: Side) -> &mut [T] {
        let start = self.place(size_of_val(buffer), side).cast::<T>();
        assert!(start.is_aligned());
        // SAFETY: the place has room for the buffer, is aligned, and nothing else is there.
        unsafe {
            start.copy_from_nonoverlapping(buffer.as_ptr(), buffer.len());
            from_raw_parts_mut(start, buffer.len())
        }
    }
}
