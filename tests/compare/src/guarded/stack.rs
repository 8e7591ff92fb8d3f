//! How much stack a call uses. The library asks for no other memory, and no proof bounds it; so the greatest inputs are run on
//! a stack that is painted before, and where the paint is gone after was used.

use super::fence::Fence;
use crate::answer::Answer;
use crate::case::{whole, Subject};
use crate::corpus::watched_run;
use crate::gen::build;
use crate::sim::{ARRANGEMENT_ROOM, PROGRAM_ROOM, ROWS_ROOM, TABLE_ROOM};
use std::ffi::{c_int, c_void};
use std::hint::black_box;
use std::ptr::{null, null_mut};

/// More than any call may use: what a small thread on a device has.
const MOST: usize = 64 << 10;
const ROOM: usize = 2 << 20;
const PAINT: u8 = 0xA5;

extern "C" {
    fn pthread_attr_init(attributes: *mut c_void) -> c_int;
    fn pthread_attr_setstack(attributes: *mut c_void, start: *mut c_void, length: usize) -> c_int;
    fn pthread_create(thread: *mut u64, attributes: *const c_void, run: extern "C" fn(*mut c_void) -> *mut c_void, with: *mut c_void) -> c_int;
    fn pthread_join(thread: u64, answer: *mut *mut c_void) -> c_int;
}

type Call<'a> = &'a (dyn Fn() -> Answer + 'a);

extern "C" fn run(with: *mut c_void) -> *mut c_void {
    // SAFETY: `used` passes a pointer to a call that lives until the thread is joined.
    let call = unsafe { *with.cast::<Call>() };
    black_box(call());
    null_mut()
}

/// The bytes of stack that a thread uses which makes this call.
fn used(call: Call) -> usize {
    let stack = Fence::new(ROOM);
    // As large as the C library's struct, which has 56 bytes.
    let mut attributes = [0u64; 8];
    let (mut thread, mut call) = (0, call);
    let given = attributes.as_mut_ptr().cast();
    // SAFETY: the stack and the call live until the thread is joined; the stack is nobody else's.
    unsafe {
        stack.start().write_bytes(PAINT, ROOM);
        let started = pthread_attr_init(given) | pthread_attr_setstack(given, stack.start().cast(), ROOM);
        assert_eq!(started | pthread_create(&mut thread, given, run, (&raw mut call).cast()), 0, "a thread can be started");
        assert_eq!(pthread_join(thread, null::<*mut c_void>().cast_mut()), 0);
        let bytes = std::slice::from_raw_parts(stack.start(), ROOM);
        ROOM - bytes.iter().position(|byte| *byte != PAINT).unwrap_or(ROOM)
    }
}

/// Does no call use too much?
pub fn stacks(subject: &dyn Subject) -> bool {
    let (net, log) = watched_run(128);
    let record = build(&net, &log).expect("a run of the net");
    let arrangement = (0..128).map(|event| format!("G,{event}\n")).collect::<String>().into_bytes();
    let energy = b"K,1000000,60000,1\nW,1000000,1000000\nJ,1000000\nW,1000000,1000000\n";
    let input = [&net[..], b"=\n", &log].concat();
    let out = || vec![0; PROGRAM_ROOM];
    let calls: [(&str, Call); 8] = [
        ("read_net", &|| subject.read_net(&net)),
        ("build", &|| subject.build(&net, &log, &mut out())),
        ("check", &|| subject.check(&net, &record, &mut out()[..TABLE_ROOM])),
        ("replay", &|| subject.replay(&net, &record, &arrangement, &mut vec![0; ROWS_ROOM])),
        ("arrange", &|| subject.arrange(&net, &record, &mut out()[..ARRANGEMENT_ROOM])),
        ("energy", &|| subject.energy(&net, &record, energy)),
        ("refused_line", &|| subject.refused_line(&net, &record, 1, 4_000)),
        ("program", &|| subject.program(&input, whole(&mut out()))),
    ];
    let alone = used(&Answer::default);
    let most = calls.map(|(name, call)| (name, used(call).saturating_sub(alone)));
    let words: Vec<String> = most.iter().map(|(name, bytes)| format!("{name} {:.0}", *bytes as f64 / 1024.0)).collect();
    println!("stack ({}), KiB with the greatest record: {}", subject.name(), words.join(", "));
    most.iter().all(|(_, bytes)| *bytes <= MOST)
}
