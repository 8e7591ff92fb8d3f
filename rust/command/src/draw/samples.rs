//! Runs that tests draw: the examples, and the greatest records.

use crate::names::Names;
use crate::run::Run;

fn file(path: &str) -> Vec<u8> {
    let whole = format!("{}/../../examples/{path}", env!("CARGO_MANIFEST_DIR"));
    std::fs::read(&whole).unwrap_or_else(|error| panic!("{whole}: {error}"))
}

/// The run of a net and a log.
pub fn run(net: &[u8], log: &[u8]) -> Run {
    let record = pti::build(net, log).unwrap();
    Run::new(net, &record).unwrap()
}

/// A log of examples, by its folder and name.
pub fn example(folder: &str, log: &str) -> Run {
    run(&file(&format!("{folder}/net")), &file(&format!("{folder}/{log}.log")))
}

/// The names of a folder of examples.
pub fn names(folder: &str) -> Names {
    Names::of(&file(&format!("{folder}/names"))).unwrap()
}

fn step(times: usize, transition: usize) -> String {
    format!("S{}\n", format!(",{transition}").repeat(times))
}

/// No event at all, and a token that nothing touches.
pub fn nothing() -> Run {
    run(b"P,1\nT\nI,0,0\nO,0,0\n", b"")
}

/// 128 events in turn.
pub fn chain() -> Run {
    run(b"P,1\nT\nI,0,0\nO,0,0\n", step(1, 0).repeat(128).as_bytes())
}

/// 128 events in one step, and 512 conditions.
pub fn pour() -> Run {
    run(b"P,384\nP,0\nT\nI,0,0\nO,0,1\n", step(128, 0).as_bytes())
}

/// 4,096 marks.
pub fn fill() -> Run {
    let net = b"P,64\nP,0\nP,33\nP,0\nP,0\nT\nT\nI,0,0\nO,0,1\nH,3,0\nH,4,0\nI,2,1\nO,1,3\nO,1,4\n";
    run(net, (step(64, 0) + &step(32, 1)).as_bytes())
}

/// Blocks that are written and flushed in turn, and a lamp that is lit only while none is dirty: long marks over many lines.
pub fn turns() -> Run {
    let net = b"P,1\nP,0\nP,1\nT\nT\nT\nI,0,0\nO,0,1\nI,1,1\nO,1,0\nI,2,2\nO,2,2\nH,1,2\n";
    let round = step(1, 0) + &step(1, 1) + &step(1, 2);
    run(net, round.repeat(42).as_bytes())
}

/// Tokens that wait for half of 124 lines, and marks over as many: more slots than the budget has for marks.
pub fn long() -> Run {
    let net = b"P,1\nP,0\nP,1\nP,0\nT\nT\nI,0,0\nO,0,0\nO,0,1,3\nI,1,1,3\nI,2,1\nO,1,2\nO,1,3\nH,3,0\n";
    run(net, (step(1, 0).repeat(64) + &step(1, 1).repeat(60)).as_bytes())
}

pub fn all() -> Vec<(&'static str, Run)> {
    let mut runs = vec![("nothing", nothing()), ("chain", chain()), ("pour", pour()), ("fill", fill()), ("turns", turns()), ("long", long())];
    let examples = [
        ("drive", "a"),
        ("drive", "b"),
        ("temperature", "flush"),
        ("temperature", "together"),
        ("flush", "four"),
        ("flush", "warning"),
        ("crossed", "together"),
        ("cache", "steady"),
        ("cache", "shifts"),
    ];
    runs.extend(examples.map(|(folder, log)| (log, example(folder, log))));
    runs
}
