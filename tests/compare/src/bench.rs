//! Times of the operations: the library against the simulator, in one run.
//!
//! The times of a call are of one thread's processor, and of a sample of calls that is long against the clock's steps. All is
//! measured in several rounds; of the middle samples of the rounds the least is given, which other programs disturbed least,
//! with the distance between that round's quarters as its spread.

use crate::case::{whole, Operation, Subject};
use crate::corpus::{reading_run, watched_run};
use crate::gen::build;
use crate::sim::{SIMULATOR, ARRANGEMENT_ROOM, PROGRAM_ROOM, RECORD_ROOM, ROWS_ROOM, TABLE_ROOM};
use crate::vectors::{Text, DRIVE};
use std::hint::black_box;
use std::time::Duration;

/// The texts of one size.
struct Load {
    name: String,
    net: Vec<u8>,
    log: Vec<u8>,
    record: Vec<u8>,
    arrangement: Vec<u8>,
    energy: Vec<u8>,
    input: Vec<u8>,
    last_line: u64,
}

impl Load {
    fn new(name: &str, net: Vec<u8>, log: Vec<u8>) -> Load {
        let record = build(&net, &log).expect("the log is a run of the net");
        let mut out = vec![0; ARRANGEMENT_ROOM];
        let written = SIMULATOR.arrange(&net, &record, &mut out).a as usize;
        out.truncate(written);
        let input = [&net[..], b"=\n", &log].concat();
        let transitions = SIMULATOR.read_net(&net).b as usize;
        let energy = ["K,3300,12000,5000\n", &"W,4500,24\n".repeat(transitions)].concat().into_bytes();
        let last_line = record.iter().filter(|byte| **byte == 10).count() as u64;
        Load { name: name.to_string(), net, log, record, arrangement: out, energy, input, last_line }
    }

    fn watched(events: usize) -> Load {
        let (net, log) = watched_run(events);
        Load::new(&format!("{events} events"), net, log)
    }
}

/// The most R marks that there can be.
fn reading() -> Load {
    let (net, log) = reading_run(128);
    Load::new("128 readers", net, log)
}

/// One call after another of an operation on a load.
fn calls<'a>(subject: &'a dyn Subject, operation: Operation, load: &'a Load) -> impl FnMut() -> u64 + 'a {
    let mut bytes = vec![0; PROGRAM_ROOM];
    let mut rows = vec![0; ROWS_ROOM];
    let (net, record) = (&load.net[..], &load.record[..]);
    move || match operation {
        Operation::ReadNet => subject.read_net(black_box(net)).a,
        Operation::Build => subject.build(net, black_box(&load.log), &mut bytes[..RECORD_ROOM]).a,
        Operation::Check => subject.check(net, black_box(record), &mut bytes[..TABLE_ROOM]).a,
        Operation::Replay => subject.replay(net, record, black_box(&load.arrangement), &mut rows).a,
        Operation::Arrange => subject.arrange(net, black_box(record), &mut bytes[..ARRANGEMENT_ROOM]).a,
        Operation::Energy => subject.energy(net, record, black_box(&load.energy)).a,
        Operation::RefusedLine => subject.refused_line(net, black_box(record), 1, load.last_line).a,
        Operation::Program => subject.program(black_box(&load.input), whole(&mut bytes)).a,
    }
}

const ROUNDS: usize = 9;
const SAMPLES: usize = 15;
/// A sample repeats a short call until it has about so many microseconds, since clocks are coarse.
const SAMPLE: f64 = 500.0;

/// Microseconds of one call, and their spread as a part of them.
#[derive(Clone, Copy)]
struct Time {
    micros: f64,
    spread: f64,
}

/// The times of the subjects, sample by sample in turn, so that what disturbs one disturbs the others.
fn times(subjects: &[&dyn Subject], operation: Operation, load: &Load) -> Vec<Time> {
    let mut calls: Vec<_> = subjects.iter().map(|subject| calls(*subject, operation, load)).collect();
    let counts: Vec<u32> = calls.iter_mut().map(|call| count_for(call)).collect();
    let mut found = vec![Vec::new(); subjects.len()];
    for _ in 0..SAMPLES {
        for ((call, count), times) in calls.iter_mut().zip(&counts).zip(&mut found) {
            times.push(sample(call, *count));
        }
    }
    found.into_iter().map(middle).collect()
}

/// Microseconds of a call, from so many.
fn sample(call: &mut impl FnMut() -> u64, count: u32) -> f64 {
    let start = processor_time();
    for _ in 0..count {
        black_box(call());
    }
    (processor_time() - start).as_nanos() as f64 / 1_000.0 / f64::from(count)
}

/// How many calls make a sample.
fn count_for(call: &mut impl FnMut() -> u64) -> u32 {
    (SAMPLE / sample(call, 3).max(0.02)).clamp(1.0, 50_000.0) as u32
}

fn middle(mut times: Vec<f64>) -> Time {
    times.sort_unstable_by(f64::total_cmp);
    let micros = times[SAMPLES / 2];
    Time { micros, spread: (times[SAMPLES * 3 / 4] - times[SAMPLES / 4]) / micros }
}

/// The processor time of this thread: other programs on a shared machine do not count, as they would by the clock.
fn processor_time() -> Duration {
    let mut time = Timespec { seconds: 0, nanoseconds: 0 };
    // SAFETY: the C library writes one struct of this layout (64-bit Linux).
    let status = unsafe { clock_gettime(CLOCK_THREAD_CPUTIME_ID, &mut time) };
    assert_eq!(status, 0, "there is such a clock");
    Duration::new(time.seconds as u64, time.nanoseconds as u32)
}

const CLOCK_THREAD_CPUTIME_ID: i32 = 3;

#[repr(C)]
struct Timespec {
    seconds: i64,
    nanoseconds: i64,
}

extern "C" {
    fn clock_gettime(clock: i32, time: *mut Timespec) -> i32;
}

/// A load by its number of events; none is the drive net.
fn load_of(events: usize) -> Load {
    match events {
        0 => Load::new("drive net", Text::from(DRIVE).0, Text::from("S,0 S,1 S,2").0),
        _ => Load::watched(events),
    }
}

/// An operation on a load, with the least time of each subject so far.
struct Row<'a> {
    operation: Operation,
    load: &'a Load,
    least: Vec<Time>,
}

fn rows<'a>(subjects: usize, operations: &[Operation], loads: &'a [Load]) -> Vec<Row<'a>> {
    let least = vec![Time { micros: f64::INFINITY, spread: 0.0 }; subjects];
    let pairs = operations.iter().flat_map(|operation| loads.iter().map(|load| (*operation, load)));
    pairs.map(|(operation, load)| Row { operation, load, least: least.clone() }).collect()
}

fn measure(subjects: &[&dyn Subject], rows: &mut [Row]) {
    for row in rows {
        for (least, time) in row.least.iter_mut().zip(times(subjects, row.operation, row.load)) {
            if time.micros < least.micros {
                *least = time;
            }
        }
    }
}

/// Every operation at three sizes and with readers, then the growth with the events. Without the library only the simulator is timed.
pub fn bench(library: Option<&dyn Subject>) {
    let subjects: Vec<&dyn Subject> = [&SIMULATOR as &dyn Subject].into_iter().chain(library).collect();
    let (sizes, growing) = ([load_of(0), load_of(32), load_of(128), reading()], [8, 16, 32, 64, 128].map(load_of));
    let operations = [Operation::Build, Operation::Check, Operation::Replay, Operation::Arrange, Operation::Energy, Operation::Program];
    let mut table: Vec<Row> = sizes.iter().flat_map(|load| rows(subjects.len(), &Operation::ALL, std::slice::from_ref(load))).collect();
    let mut growth = rows(1, &operations, &growing);
    for _ in 0..ROUNDS {
        measure(&subjects, &mut table);
        measure(&subjects[subjects.len() - 1..], &mut growth);
    }
    println!("microseconds of processor time a call: the least median of {ROUNDS} rounds of {SAMPLES} samples; ratio: library over simulator");
    println!("{:12} {:12} {:>10} {:>10} {:>8} {:>8}", "operation", "size", "library", "simulator", "ratio", "spread");
    table.iter().for_each(print_row);
    println!("growth ({}): microseconds with 8, 16, 32, 64 and 128 events, and the factor of each doubling; marks grow fourfold", subjects[subjects.len() - 1].name());
    growth.chunks(growing.len()).for_each(print_growth);
}

fn print_row(row: &Row) {
    let spread = row.least.iter().map(|time| time.spread).fold(0.0, f64::max) * 100.0;
    let simulator = row.least[0].micros;
    let library = row.least.get(1).map_or(f64::NAN, |time| time.micros);
    println!("{:12} {:12} {library:10.2} {simulator:10.2} {:8.2} {spread:7.0}%", row.operation.name(), row.load.name, library / simulator);
}

fn print_growth(rows: &[Row]) {
    let times: Vec<f64> = rows.iter().map(|row| row.least[0].micros).collect();
    let factors: Vec<String> = times.windows(2).map(|pair| format!("x{:.1}", pair[1] / pair[0])).collect();
    let times: Vec<String> = times.iter().map(|time| format!("{time:.1}")).collect();
    println!("{:12} {}; {}", rows[0].operation.name(), times.join(", "), factors.join(", "));
}

/// So many calls of an operation and nothing else: for a profiler.
pub fn repeat(subject: &dyn Subject, operation: Operation, events: usize, times: u64) {
    let load = load_of(events);
    let mut call = calls(subject, operation, &load);
    for _ in 0..times {
        black_box(call());
    }
}
