//! The benchmark: every operation on deterministic workloads, the peer alone or,
//! with the feature lib, side by side with the verified library (src/library.rs).
//!
//!   cargo run --release --bin bench [-- [quick] [best] [WORD]...]
//!
//! quick: fewer and shorter rounds.  best: the fastest round in place of the median.
//! With words, only the cases whose name has one of them.  Buffers are lent dirty
//! and reused from call to call; nothing is cleared between calls.  For each case
//! the implementations are first compared on answer and whole buffer, then
//! warmed up, then timed in rounds that take turns, by the thread's processor
//! time; the figure is the median of the rounds, and a ratio is the median of the ratios round by round.

use std::hint::black_box;
use std::time::Duration;

#[cfg(feature = "lib")]
#[path = "../library.rs"]
mod library;

// ------------------------------------------------------------------ operations

/// 0 or the refusal's number; spot or first value; second; third.  Of floats
/// their bits.
pub type Answer = [u64; 4];

#[derive(Clone, Copy, PartialEq, Eq, Debug)]
pub enum Op {
    ReadNet,
    Build,
    Check,
    Replay,
    Arrange,
    Energy,
    RefusedLine,
    Program,
}

/// One implementation of document 01 with 2026-04, 2026-05 and 2026-06.
pub trait Ops {
    fn name(&self) -> &'static str;
    /// Whether the implementation has the operation.
    fn has(&self, op: Op) -> bool;
    fn read_net(&self, net: &[u8]) -> Answer;
    fn build(&self, net: &[u8], log: &[u8], buffer: &mut [u8]) -> Answer;
    fn check(&self, net: &[u8], record: &[u8], table: &mut [u8]) -> Answer;
    fn replay(&self, net: &[u8], record: &[u8], arrangement: &[u8], rows: &mut [u16]) -> Answer;
    fn arrange(&self, net: &[u8], record: &[u8], buffer: &mut [u8]) -> Answer;
    fn energy(&self, net: &[u8], record: &[u8], energy: &[u8]) -> Answer;
    fn refused_line(&self, net: &[u8], second: &[u8], choice: usize, line: usize) -> Answer;
    fn program(&self, input: &[u8], out: &mut [u8]) -> Answer;
}

pub struct Peer;

fn refused(r: peer::Refusal) -> Answer {
    [r.number as u64, r.spot as u64, 0, 0]
}

impl Ops for Peer {
    fn name(&self) -> &'static str {
        "peer"
    }
    fn has(&self, _op: Op) -> bool {
        true
    }
    fn read_net(&self, net: &[u8]) -> Answer {
        match peer::read_net(net) {
            Ok((p, t)) => [0, p as u64, t as u64, 0],
            Err(r) => refused(r),
        }
    }
    fn build(&self, net: &[u8], log: &[u8], buffer: &mut [u8]) -> Answer {
        match peer::build(net, log, buffer) {
            Ok(len) => [0, len as u64, 0, 0],
            Err(r) => refused(r),
        }
    }
    fn check(&self, net: &[u8], record: &[u8], table: &mut [u8]) -> Answer {
        match peer::check(net, record, table) {
            Ok(c) => [0, c.events as u64, c.conditions as u64, c.pairs as u64],
            Err(r) => refused(r),
        }
    }
    fn replay(&self, net: &[u8], record: &[u8], arrangement: &[u8], rows: &mut [u16]) -> Answer {
        match peer::replay(net, record, arrangement, rows) {
            Ok(lines) => [0, lines as u64, 0, 0],
            Err(r) => refused(r),
        }
    }
    fn arrange(&self, net: &[u8], record: &[u8], buffer: &mut [u8]) -> Answer {
        match peer::arrange(net, record, buffer) {
            Ok(a) => [0, a.bytes as u64, a.lines as u64, 0],
            Err(r) => refused(r),
        }
    }
    fn energy(&self, net: &[u8], record: &[u8], energy: &[u8]) -> Answer {
        match peer::energy(net, record, energy) {
            Ok(e) => [0, e.usable.to_bits(), e.draw.to_bits(), e.left.to_bits()],
            Err(r) => refused(r),
        }
    }
    fn refused_line(&self, net: &[u8], second: &[u8], choice: usize, line: usize) -> Answer {
        let p = peer::refused_line(net, second, choice, line);
        match p.refused {
            None => {
                let text = if choice == 0 { net } else { second };
                let start = p.part.as_ptr() as usize - text.as_ptr() as usize;
                [0, choice as u64, start as u64, p.part.len() as u64]
            }
            Some(r) => refused(r),
        }
    }
    fn program(&self, input: &[u8], out: &mut [u8]) -> Answer {
        [0, peer::program(input, out) as u64, 0, 0]
    }
}

/// All implementations that are measured, the peer first.
fn implementations() -> Vec<Box<dyn Ops>> {
    #[allow(unused_mut)]
    let mut all: Vec<Box<dyn Ops>> = vec![Box::new(Peer)];
    #[cfg(feature = "lib")]
    all.push(Box::new(library::Library));
    all
}

// ------------------------------------------------------------------ workloads

/// xorshift64*, for orders of lines only.
struct Random(u64);

impl Random {
    fn below(&mut self, n: usize) -> usize {
        self.0 ^= self.0 >> 12;
        self.0 ^= self.0 << 25;
        self.0 ^= self.0 >> 27;
        ((self.0.wrapping_mul(0x2545_f491_4f6c_dd1d) >> 33) % n as u64) as usize
    }
    fn shuffle<T>(&mut self, list: &mut [T]) {
        for i in (1..list.len()).rev() {
            list.swap(i, self.below(i + 1));
        }
    }
}

fn lines(words: &str) -> Vec<u8> {
    words.split_whitespace().flat_map(|w| format!("{w}\n").into_bytes()).collect()
}

fn log_text(steps: &[Vec<usize>]) -> Vec<u8> {
    let mut text = String::new();
    for step in steps {
        text.push('S');
        for t in step {
            text += &format!(",{t}");
        }
        text.push('\n');
    }
    text.into_bytes()
}

/// The drive net of document 01.
fn drive_net() -> Vec<u8> {
    lines("P,1 P,0 P,1 P,0 P,0 T T T I,0,0 O,0,1 I,1,1 O,1,4 I,2,2 O,2,3 H,1,2")
}

/// Writers fill two dirty places, flushers empty them, parkers are inhibited by
/// both; every transition also writes to history places.
struct Cache {
    writers: usize,
    flushers: usize,
    parkers: usize,
    /// Tokens of the writers', flushers' and parkers' idle places.
    tokens: usize,
    /// History places that a writer, a flusher and a parker write to.
    history: [usize; 3],
    places: usize,
}

impl Cache {
    fn net(&self) -> Vec<u8> {
        let mut text = String::new();
        for p in 0..self.places {
            text += &format!("P,{}\n", if [0, 3, 4].contains(&p) { self.tokens } else { 0 });
        }
        let all = self.writers + self.flushers + self.parkers;
        for _ in 0..all {
            text += "T\n";
        }
        let mut turn = 0;
        for t in 0..all {
            let (idle, k) = if t < self.writers {
                text += &format!("I,0,{t}\nO,{t},0\nO,{t},1\nO,{t},2\n");
                (0, self.history[0])
            } else if t < self.writers + self.flushers {
                text += &format!("I,1,{t}\nI,2,{t}\nI,3,{t}\nO,{t},3\n");
                (3, self.history[1])
            } else {
                text += &format!("I,4,{t}\nO,{t},4\nH,1,{t}\nH,2,{t}\n");
                (4, self.history[2])
            };
            let _ = idle;
            for _ in 0..k {
                text += &format!("O,{t},{}\n", 5 + turn % (self.places - 5));
                turn += 1;
            }
        }
        text.into_bytes()
    }
    /// Rounds of: `width` writes with `beside` parks in one step, `width` flushes in
    /// one step, then steps of `parks` parks.
    fn log(&self, rounds: usize, width: usize, beside: usize, parks: &[usize]) -> Vec<u8> {
        let (mut w, mut f, mut p) = (0, 0, 0);
        let mut steps = Vec::new();
        let mut park = || {
            p += 1;
            self.writers + self.flushers + (p - 1) % self.parkers
        };
        for _ in 0..rounds {
            let mut step = Vec::new();
            for _ in 0..width {
                step.push(w % self.writers);
                w += 1;
            }
            for _ in 0..beside {
                step.push(park());
            }
            steps.push(step);
            let mut step = Vec::new();
            for _ in 0..width {
                step.push(self.writers + f % self.flushers);
                f += 1;
            }
            steps.push(step);
            for &k in parks {
                steps.push((0..k).map(|_| park()).collect());
            }
        }
        log_text(&steps)
    }
}

/// All arcs between 32 places and 32 transitions: 3,136 lines.
fn long_net(shuffled: bool) -> Vec<u8> {
    let mut arcs = Vec::new();
    for t in 0..32 {
        for p in 0..32 {
            arcs.push(format!("I,{p},{t}\n"));
        }
        for p in 0..32 {
            arcs.push(format!("O,{t},{p}\n"));
        }
        for p in 0..32 {
            arcs.push(format!("H,{p},{t}\n"));
        }
    }
    if shuffled {
        Random(0x9e37_79b9_7f4a_7c15).shuffle(&mut arcs);
    }
    let mut text = "P,16\n".repeat(32) + &"T\n".repeat(32);
    text += &arcs.concat();
    text.into_bytes()
}

/// A cache that writes blocks one by one, flushes four together, and parks when
/// none is dirty: so many rounds of that.
fn flushing(rounds: usize) -> (Vec<u8>, Vec<u8>) {
    let net = "P,8 P,0 P,0 P,1 P,0 T T T I,0,0 O,0,1 I,1,1,4 O,1,0,4 O,1,2,4 I,3,2 O,2,3 O,2,4 H,1,2";
    (lines(net), lines("S,0,0,0,0 S,1 S,2").repeat(rounds))
}

/// The arcs of `long_net` between 32 places and 32 transitions, with a weight on
/// every input and output.
fn heavy_net() -> Vec<u8> {
    let mut text = "P,16\n".repeat(32) + &"T\n".repeat(32);
    for t in 0..32 {
        for p in 0..32 {
            let (input, output) = ((p + t) % 16 + 1, (p + 3 * t) % 16 + 1);
            text += &format!("I,{p},{t},{input}\nO,{t},{p},{output}\nH,{p},{t}\n");
        }
    }
    text.into_bytes()
}

/// 32 places in a ring: each transition takes all of one, as many as its number
/// says, and fills the next, which the place behind inhibits.
fn heavy_ring(events: usize) -> (Vec<u8>, Vec<u8>) {
    let weight = |p: usize| p % 32 % 16 + 1;
    let mut text = "P,1\n".to_string() + &"P,0\n".repeat(31) + &"T\n".repeat(32);
    for t in 0..32 {
        let (next, behind) = ((t + 1) % 32, (t + 31) % 32);
        text += &format!("I,{t},{t},{}\nO,{t},{next},{}\nH,{behind},{t}\n", weight(t), weight(next));
    }
    (text.into_bytes(), log_text(&(0..events).map(|e| vec![e % 32]).collect::<Vec<_>>()))
}

/// Transitions that take from place 0 and fill a place each, the place behind
/// their number, and are inhibited by the place that the next one fills.
fn crossed_ring(transitions: usize) -> Vec<u8> {
    let mut text = "P,128\n".to_string() + &"P,0\n".repeat(transitions) + &"T\n".repeat(transitions);
    for t in 0..transitions {
        text += &format!("I,0,{t}\nO,{t},{}\nH,{},{t}\n", t + 1, (t + 1) % transitions + 1);
    }
    text.into_bytes()
}

fn built(net: &[u8], log: &[u8]) -> Vec<u8> {
    let mut buffer = vec![0; peer::BUILD_BYTES];
    let len = peer::build(net, log, &mut buffer).expect("a sound run");
    buffer.truncate(len);
    buffer
}

fn arranged(net: &[u8], record: &[u8]) -> Vec<u8> {
    let mut buffer = vec![0; peer::ARRANGE_BYTES];
    let a = peer::arrange(net, record, &mut buffer).expect("a sound record");
    buffer.truncate(a.bytes);
    buffer
}

/// The same record with events, conditions and marks in another order.
fn renumbered(record: &[u8]) -> Vec<u8> {
    let text = std::str::from_utf8(record).expect("text");
    let rows: Vec<Vec<&str>> = text.lines().map(|l| l.split(',').collect()).collect();
    let of = |letters: &[&str]| -> Vec<Vec<&str>> {
        rows.iter().filter(|r| letters.contains(&r[0])).cloned().collect()
    };
    let (events, conditions, mut marks) = (of(&["E"]), of(&["C"]), of(&["A", "B"]));
    let mut random = Random(0x0123_4567_89ab_cdef);
    let mut order = |n: usize| {
        let mut list: Vec<usize> = (0..n).collect();
        random.shuffle(&mut list);
        list
    };
    let (e, c) = (order(events.len()), order(conditions.len())); // old number at new
    let (mut new_e, mut new_c) = (vec![0; e.len()], vec![0; c.len()]);
    e.iter().enumerate().for_each(|(new, &old)| new_e[old] = new);
    c.iter().enumerate().for_each(|(new, &old)| new_c[old] = new);
    let event = |f: &str| match f {
        "-" => "-".to_string(),
        _ => new_e[f.parse::<usize>().expect("event")].to_string(),
    };
    let mut text = String::new();
    for &old in &e {
        text += &format!("E,{}\n", events[old][1]);
    }
    for &old in &c {
        let r = &conditions[old];
        text += &format!("C,{},{},{}\n", r[1], event(r[2]), event(r[3]));
    }
    random.shuffle(&mut marks);
    for r in &marks {
        let c = new_c[r[1].parse::<usize>().expect("condition")];
        text += &format!("{},{c},{}\n", r[0], event(r[2]));
    }
    text.into_bytes()
}

/// An energy text for so many transitions: loads, and every third a pulse.
fn energies(transitions: usize) -> Vec<u8> {
    let mut text = "K,3300,12000,5000\n".to_string();
    for t in 0..transitions {
        text += &match t % 3 {
            0 => format!("J,{}\n", 1_500 + 37 * t),
            _ => format!("W,{},{}\n", 2_500 + 111 * t, 8 + t),
        };
    }
    text.into_bytes()
}

fn input(net: &[u8], log: &[u8]) -> Vec<u8> {
    [net, b"=\n", log].concat()
}

/// One measured call.
struct Case {
    op: Op,
    name: String,
    texts: Vec<Vec<u8>>,
    numbers: [usize; 2],
}

fn cases() -> Vec<Case> {
    let mut list = Vec::new();
    let mut add = |op: Op, name: &str, texts: &[&[u8]], numbers: [usize; 2]| {
        let texts = texts.iter().map(|t| t.to_vec()).collect();
        list.push(Case { op, name: format!("{op:?} {name}"), texts, numbers });
    };

    let drive = drive_net();
    let log_a = lines("S,0 S,1 S,2");
    let log_b = lines("S,0,2");
    let rec_a = built(&drive, &log_a);
    let rec_b = built(&drive, &log_b);

    let middling = Cache { writers: 2, flushers: 2, parkers: 4, tokens: 2, history: [1, 1, 1], places: 12 };
    let mid_net = middling.net();
    let mid_log = middling.log(4, 2, 1, &[2, 1]);
    let mid_rec = built(&mid_net, &mid_log);
    let mid_arr = arranged(&mid_net, &mid_rec);

    let full = Cache { writers: 8, flushers: 8, parkers: 16, tokens: 4, history: [1, 2, 3], places: 32 };
    let full_net = full.net();
    let full_log = full.log(8, 4, 2, &[3, 3]);
    let full_rec = built(&full_net, &full_log);
    let full_arr = arranged(&full_net, &full_rec);
    let full_mixed = renumbered(&full_rec);
    let full_mixed_arr = arranged(&full_net, &full_mixed);

    let long = long_net(false);
    let long_mixed = long_net(true);

    // One token round a ring of four places: a chain of 128 events.
    let ring = lines("P,1 P,0 P,0 P,0 T T T T I,0,0 O,0,1 I,1,1 O,1,2 I,2,2 O,2,3 I,3,3 O,3,0");
    let chain_log = log_text(&(0..128).map(|e| vec![e % 4]).collect::<Vec<_>>());
    let chain = built(&ring, &chain_log);
    let chain_arr = arranged(&ring, &chain);
    // A ring again, with every event of one transition inhibited by another
    // place of the ring: a chain with marks, A and B.
    let dense_net = lines(
        "P,1 P,0 P,0 P,0 T T T T I,0,0 O,0,1 I,1,1 O,1,2 I,2,2 O,2,3 I,3,3 O,3,0 H,2,0 H,1,2 H,3,1 H,1,3",
    );
    let dense = built(&dense_net, &chain_log);
    let dense_mixed = renumbered(&dense);
    let dense_arr = arranged(&dense_net, &dense);
    // No order at all: 128 events in one step.
    let wide_net = lines("P,200 P,0 T I,0,0 O,0,1");
    let wide_log = log_text(&[vec![0; 128]]);
    let wide = built(&wide_net, &wide_log);
    // 31 transitions in a ring, each inhibited by what the next one fills: 128
    // events in one step, each not later than all others.
    let crossed_net = crossed_ring(31);
    let crossed_log = log_text(&[(0..128).map(|e| e % 31).collect()]);
    let crossed = built(&crossed_net, &crossed_log);

    let (flush_net, flush_log) = flushing(21);
    let flush = built(&flush_net, &flush_log);
    let flush_arr = arranged(&flush_net, &flush);
    let heavy = heavy_net();
    let (heavy_ring_net, heavy_log) = heavy_ring(58);
    let heavy_rec = built(&heavy_ring_net, &heavy_log);
    let heavy_arr = arranged(&heavy_ring_net, &heavy_rec);

    eprintln!(
        "drive a: {}\nmiddling: {}\nfull: {}\nchain: {}\ndense: {}\nwide: {}\ncrossed: {}\nflush four: {}\nheavy ring: {}\nlong net: {} bytes, {} lines",
        counts(&drive, &rec_a), counts(&mid_net, &mid_rec), counts(&full_net, &full_rec),
        counts(&ring, &chain), counts(&dense_net, &dense), counts(&wide_net, &wide),
        counts(&crossed_net, &crossed), counts(&flush_net, &flush), counts(&heavy_ring_net, &heavy_rec),
        long.len(), long.iter().filter(|&&b| b == b'\n').count(),
    );

    let none = [0, 0];
    use Op::*;
    add(ReadNet, "drive", &[&drive], none);
    add(ReadNet, "middling", &[&mid_net], none);
    add(ReadNet, "full", &[&full_net], none);
    add(ReadNet, "long", &[&long], none);
    add(ReadNet, "long shuffled", &[&long_mixed], none);

    add(Build, "drive a", &[&drive, &log_a], none);
    add(Build, "drive b", &[&drive, &log_b], none);
    add(Build, "drive c (refused 25)", &[&drive, &lines("S,0 S,2")], none);
    add(Build, "middling", &[&mid_net, &mid_log], none);
    add(Build, "full", &[&full_net, &full_log], none);
    add(Build, "chain", &[&ring, &chain_log], none);

    add(Check, "drive a", &[&drive, &rec_a], none);
    add(Check, "drive b", &[&drive, &rec_b], none);
    add(Check, "middling", &[&mid_net, &mid_rec], none);
    add(Check, "full", &[&full_net, &full_rec], none);
    add(Check, "full renumbered", &[&full_net, &full_mixed], none);
    add(Check, "chain", &[&ring, &chain], none);
    add(Check, "dense", &[&dense_net, &dense], none);
    add(Check, "dense renumbered", &[&dense_net, &dense_mixed], none);
    add(Check, "wide", &[&wide_net, &wide], none);
    add(Check, "crossed", &[&crossed_net, &crossed], none);
    let last = full_rec[..full_rec.len() - 1].iter().rposition(|&b| b == b'\n').unwrap_or(0) + 1;
    add(Check, "full less a mark (refused 37)", &[&full_net, &full_rec[..last]], none);
    // all of it is read, and nothing more: a mark named by five digits stands behind the last
    let five = [&full_rec[..], b"B,10000,0\n"].concat();
    add(Check, "full, read only (refused 31)", &[&full_net, &five], none);

    add(Replay, "drive a", &[&drive, &rec_a, &arranged(&drive, &rec_a)], none);
    add(Replay, "middling", &[&mid_net, &mid_rec, &mid_arr], none);
    add(Replay, "full", &[&full_net, &full_rec, &full_arr], none);
    add(Replay, "full renumbered", &[&full_net, &full_mixed, &full_mixed_arr], none);
    add(Replay, "chain", &[&ring, &chain, &chain_arr], none);
    add(Replay, "dense", &[&dense_net, &dense, &dense_arr], none);

    add(Arrange, "drive a", &[&drive, &rec_a], none);
    add(Arrange, "middling", &[&mid_net, &mid_rec], none);
    add(Arrange, "full", &[&full_net, &full_rec], none);
    add(Arrange, "full renumbered", &[&full_net, &full_mixed], none);
    add(Arrange, "chain", &[&ring, &chain], none);
    add(Arrange, "dense renumbered", &[&dense_net, &dense_mixed], none);

    add(Energy, "drive a", &[&drive, &rec_a, &lines("K,3300,12000,5000 W,2500,8 W,4500,24 J,52000")], none);
    add(Energy, "full", &[&full_net, &full_rec, &energies(32)], none);
    add(Energy, "chain", &[&ring, &chain, &energies(4)], none);

    add(RefusedLine, "drive, line 9", &[&drive, &log_a], [0, 9]);
    add(RefusedLine, "long net, line 3136", &[&long, &log_a], [0, 3136]);

    add(Program, "drive a", &[&input(&drive, &log_a)], none);
    add(Program, "middling", &[&input(&mid_net, &mid_log)], none);
    add(Program, "full", &[&input(&full_net, &full_log)], none);
    add(Program, "chain", &[&input(&ring, &chain_log)], none);
    add(Program, "long net, empty log", &[&input(&long, b"")], none);

    add(ReadNet, "flush four", &[&flush_net], none);
    add(ReadNet, "heavy", &[&heavy], none);
    add(Build, "flush four", &[&flush_net, &flush_log], none);
    add(Build, "heavy ring", &[&heavy_ring_net, &heavy_log], none);
    add(Check, "flush four", &[&flush_net, &flush], none);
    add(Check, "heavy ring", &[&heavy_ring_net, &heavy_rec], none);
    add(Replay, "flush four", &[&flush_net, &flush, &flush_arr], none);
    add(Replay, "heavy ring", &[&heavy_ring_net, &heavy_rec, &heavy_arr], none);
    add(Arrange, "flush four", &[&flush_net, &flush], none);
    add(Program, "flush four", &[&input(&flush_net, &flush_log)], none);
    list
}

fn counts(net: &[u8], record: &[u8]) -> String {
    let mut table = vec![0; peer::TABLE_BYTES];
    let c = peer::check(net, record, &mut table).expect("a sound record");
    let of = |v: u8| table.iter().filter(|&&b| b == v).count();
    let marks = record.split(|&b| b == b'\n').filter(|l| matches!(l.first(), Some(b'A' | b'B'))).count();
    let a = record.split(|&b| b == b'\n').filter(|l| l.first() == Some(&b'A')).count();
    format!(
        "net {} bytes, record {} bytes, {} events, {} conditions, {} marks ({} A), {} strict, {} only weak, {} independent",
        net.len(), record.len(), c.events, c.conditions, marks, a, of(2), of(1), c.pairs,
    )
}

// ------------------------------------------------------------------ measuring

/// Buffers lent to every call.
struct Buffers {
    build: Vec<u8>,
    table: Vec<u8>,
    rows: Vec<u16>,
    arrange: Vec<u8>,
    out: Vec<u8>,
}

impl Buffers {
    fn new() -> Buffers {
        Buffers {
            build: vec![0xa5; peer::BUILD_BYTES],
            table: vec![0xa5; peer::TABLE_BYTES],
            rows: vec![0xa5a5; peer::REPLAY_COUNTS],
            arrange: vec![0xa5; peer::ARRANGE_BYTES],
            out: vec![0xa5; peer::PROGRAM_OUT],
        }
    }
}

/// The thread's own processor time, so that other work on the machine counts
/// only by what it takes of caches and shared cores.
#[cfg(target_os = "linux")]
fn now() -> Duration {
    #[repr(C)]
    struct Time {
        seconds: i64,
        nanoseconds: i64,
    }
    extern "C" {
        fn clock_gettime(clock: i32, time: *mut Time) -> i32;
    }
    const THREAD_CPUTIME: i32 = 3;
    let mut t = Time { seconds: 0, nanoseconds: 0 };
    let answer = unsafe { clock_gettime(THREAD_CPUTIME, &mut t) };
    assert_eq!(answer, 0, "no clock for the thread");
    Duration::new(t.seconds as u64, t.nanoseconds as u32)
}

#[cfg(not(target_os = "linux"))]
fn now() -> Duration {
    use std::sync::OnceLock;
    use std::time::Instant;
    static START: OnceLock<Instant> = OnceLock::new();
    START.get_or_init(Instant::now).elapsed()
}

#[inline(always)]
fn call(ops: &dyn Ops, case: &Case, b: &mut Buffers) -> Answer {
    let t = |i: usize| black_box(case.texts[i].as_slice());
    match case.op {
        Op::ReadNet => ops.read_net(t(0)),
        Op::Build => ops.build(t(0), t(1), &mut b.build),
        Op::Check => ops.check(t(0), t(1), &mut b.table),
        Op::Replay => ops.replay(t(0), t(1), t(2), &mut b.rows),
        Op::Arrange => ops.arrange(t(0), t(1), &mut b.arrange),
        Op::Energy => ops.energy(t(0), t(1), t(2)),
        Op::RefusedLine => ops.refused_line(t(0), t(1), case.numbers[0], case.numbers[1]),
        Op::Program => ops.program(t(0), &mut b.out),
    }
}

fn round(ops: &dyn Ops, case: &Case, b: &mut Buffers, calls: u64) -> f64 {
    let start = now();
    for _ in 0..calls {
        black_box(call(ops, case, b));
    }
    (now() - start).as_nanos() as f64 / calls as f64
}

/// Calls that take about as long as asked, found while warming up.
fn calibrate(ops: &dyn Ops, case: &Case, b: &mut Buffers, long: Duration) -> u64 {
    let mut calls = 1u64;
    loop {
        let start = now();
        for _ in 0..calls {
            black_box(call(ops, case, b));
        }
        let took = now() - start;
        if took >= long {
            return calls;
        }
        calls = if took < long / 20 {
            calls * 8
        } else {
            (calls as f64 * 1.1 * long.as_secs_f64() / took.as_secs_f64()).ceil() as u64
        };
    }
}

/// The median, or the lowest; None of none.
fn middle(mut list: Vec<f64>, lowest: bool) -> Option<f64> {
    list.sort_by(f64::total_cmp);
    list.get(if lowest { 0 } else { list.len() / 2 }).copied()
}

fn main() {
    let words: Vec<String> = std::env::args().skip(1).collect();
    let quick = words.iter().any(|w| w == "quick");
    let best = words.iter().any(|w| w == "best");
    let wanted: Vec<&String> = words.iter().filter(|w| *w != "quick" && *w != "best").collect();
    let (long, rounds) = if quick {
        (Duration::from_millis(5), 7)
    } else {
        (Duration::from_millis(25), 21)
    };
    let all = implementations();
    let mut header = format!("{:<46} {:>8}", "case", "bytes in");
    for ops in &all {
        header += &format!(" {:>10} {:>8}", format!("{} ns", ops.name()), "MB/s");
    }
    for ops in &all[1..] {
        header += &format!(" {:>10}", format!("{}/peer", ops.name()));
    }
    println!("{header}");
    let mut logs = vec![(0.0, 0u32); all.len()];
    for case in cases() {
        if !wanted.is_empty() && !wanted.iter().any(|w| case.name.contains(w.as_str())) {
            continue;
        }
        let bytes: usize = match case.op {
            // Only the chosen text is looked at.
            Op::RefusedLine => case.texts[case.numbers[0]].len(),
            _ => case.texts.iter().map(Vec::len).sum(),
        };
        // The answers must be the same before anything is timed.
        let mut first = Buffers::new();
        let expected = call(all[0].as_ref(), &case, &mut first);
        for ops in &all[1..] {
            if !ops.has(case.op) {
                continue;
            }
            let mut b = Buffers::new();
            let given = call(ops.as_ref(), &case, &mut b);
            assert_eq!(given, expected, "{}: {} answers otherwise", case.name, ops.name());
            assert!(
                b.build == first.build
                    && b.table == first.table
                    && b.rows == first.rows
                    && b.arrange == first.arrange
                    && b.out == first.out,
                "{}: {} writes otherwise",
                case.name,
                ops.name()
            );
        }
        let mut b = Buffers::new();
        let calls: Vec<u64> = all
            .iter()
            .map(|ops| match ops.has(case.op) {
                true => calibrate(ops.as_ref(), &case, &mut b, long),
                false => 0,
            })
            .collect();
        let mut times: Vec<Vec<f64>> = vec![Vec::new(); all.len()];
        for _ in 0..rounds {
            for (i, ops) in all.iter().enumerate() {
                if calls[i] != 0 {
                    times[i].push(round(ops.as_ref(), &case, &mut b, calls[i]));
                }
            }
        }
        // Round by round, so that both sides of a ratio saw the same machine.
        let ratios: Vec<Option<f64>> = times
            .iter()
            .map(|t| middle(t.iter().zip(&times[0]).map(|(a, b)| a / b).collect(), false))
            .collect();
        let medians: Vec<Option<f64>> = times.into_iter().map(|t| middle(t, best)).collect();
        let mut line = format!("{:<46} {:>8}", case.name, bytes);
        for m in &medians {
            line += &match m {
                Some(ns) => format!(" {:>10.1} {:>8.0}", ns, bytes as f64 / ns * 1000.0),
                None => format!(" {:>10} {:>8}", "-", "-"),
            };
        }
        for (i, ratio) in ratios.iter().enumerate().skip(1) {
            line += &match ratio {
                Some(ratio) => {
                    logs[i].0 += ratio.ln();
                    logs[i].1 += 1;
                    format!(" {ratio:>10.2}")
                }
                None => format!(" {:>10}", "-"),
            };
        }
        println!("{line}");
    }
    for (ops, (sum, count)) in all.iter().zip(&logs).skip(1) {
        if *count != 0 {
            println!("{}/peer, geometric mean of {count}: {:.2}", ops.name(), (sum / *count as f64).exp());
        }
    }
}
