//! Memory between two pages that may not be touched, and what is said when they are.

use std::ffi::{c_int, c_long, c_void};
use std::ptr::null_mut;
use std::sync::atomic::{AtomicPtr, AtomicUsize, Ordering::SeqCst};

extern "C" {
    fn mmap(start: *mut c_void, length: usize, protection: c_int, flags: c_int, file: c_int, offset: c_long) -> *mut c_void;
    fn munmap(start: *mut c_void, length: usize) -> c_int;
    fn mprotect(start: *mut c_void, length: usize, protection: c_int) -> c_int;
    fn signal(number: c_int, handler: usize) -> usize;
    fn write(file: c_int, bytes: *const c_void, count: usize) -> isize;
    fn _exit(status: c_int) -> !;
}

// As Linux has them on x86-64.
const NO_ACCESS: c_int = 0;
const READ: c_int = 1;
const READ_WRITE: c_int = 3;
const PRIVATE_NEW: c_int = 0x22;
const SEGMENT_FAULT: c_int = 11;
const BUS_ERROR: c_int = 7;

/// A multiple of the page size, whatever that is there.
const PAGE: usize = 1 << 16;

/// Which end of what is lent lies against a page that may not be touched.
#[derive(Clone, Copy, Debug, PartialEq)]
pub enum Side {
    Behind,
    Front,
}

pub struct Fence {
    start: *mut u8,
    length: usize,
}

impl Fence {
    /// So many bytes, a multiple of PAGE.
    pub fn new(length: usize) -> Fence {
        assert_eq!(length % PAGE, 0);
        // SAFETY: new memory; nobody has it yet.
        let all = unsafe { mmap(null_mut(), length + 2 * PAGE, NO_ACCESS, PRIVATE_NEW, -1, 0) };
        assert!(all as isize != -1, "there is memory");
        let fence = Fence { start: all.cast::<u8>().wrapping_add(PAGE), length };
        fence.let_write(true);
        fence
    }

    pub fn start(&self) -> *mut u8 {
        self.start
    }

    pub fn let_write(&self, may: bool) {
        // SAFETY: the part between the two pages, which is ours.
        let status = unsafe { mprotect(self.start.cast(), self.length, if may { READ_WRITE } else { READ }) };
        assert_eq!(status, 0, "pages can be protected");
    }

    /// Where so many bytes lie against the fence.
    pub fn place(&self, bytes: usize, side: Side) -> *mut u8 {
        assert!(bytes <= self.length, "ROOM is as long as the longest");
        match side {
            Side::Behind => self.start.wrapping_add(self.length - bytes),
            Side::Front => self.start,
        }
    }
}

impl Drop for Fence {
    fn drop(&mut self) {
        // SAFETY: all that `new` asked for, and nothing is lent of it any more.
        unsafe { munmap(self.start.wrapping_sub(PAGE).cast(), self.length + 2 * PAGE) };
    }
}

/// The call that is being made: its name and texts, for whoever is called after a fault and may not ask for memory.
static NAME: (AtomicPtr<u8>, AtomicUsize) = (AtomicPtr::new(null_mut()), AtomicUsize::new(0));
static TEXTS: [(AtomicPtr<u8>, AtomicUsize); 3] = [const { (AtomicPtr::new(null_mut()), AtomicUsize::new(0)) }; 3];

fn remember((start, length): &(AtomicPtr<u8>, AtomicUsize), bytes: &[u8]) {
    start.store(bytes.as_ptr().cast_mut(), SeqCst);
    length.store(bytes.len(), SeqCst);
}

pub fn say_before(name: &'static str, texts: &[&[u8]]) {
    remember(&NAME, name.as_bytes());
    for (at, text) in TEXTS.iter().enumerate() {
        remember(text, texts.get(at).copied().unwrap_or_default());
    }
}

/// An access outside of what was lent is told of, and ends the process with status 1.
pub fn tell_of_accesses() {
    for number in [SEGMENT_FAULT, BUS_ERROR] {
        // SAFETY: the handler asks for no memory and does not come back.
        unsafe { signal(number, told as extern "C" fn(c_int) as usize) };
    }
}

extern "C" fn told(_: c_int) {
    say(b"DIFFERENCE (guarded pages): an access outside of what was lent, in ");
    say_remembered(&NAME);
    for text in &TEXTS {
        say(b"\n---\n");
        say_remembered(text);
    }
    say(b"\n");
    // SAFETY: ends the process.
    unsafe { _exit(1) }
}

fn say(bytes: &[u8]) {
    // SAFETY: the bytes of one slice.
    unsafe { write(1, bytes.as_ptr().cast(), bytes.len()) };
}

fn say_remembered((start, length): &(AtomicPtr<u8>, AtomicUsize)) {
    let length = length.load(SeqCst);
    if length > 0 {
        // SAFETY: was remembered before a call that has not come back, and is lent until it does.
        unsafe { write(1, start.load(SeqCst).cast_const().cast(), length) };
    }
}
