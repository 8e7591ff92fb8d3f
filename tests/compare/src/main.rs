//! Tests of the verified library `pti` against an independent simulator of documents 01 and 02. See README.md beside Cargo.toml.

mod answer;
mod bench;
mod brute;
mod case;
mod compare;
mod corpus;
mod ffi;
mod gen;
mod guarded;
mod loaded;
mod model;
mod rival;
mod rng;
mod sim;
mod vectors;

use case::Subject;
use std::io::{Read, Write};
use std::process::ExitCode;

const USAGE: &str = "usage: compare compare [--cases N] [--seed S] [--only vectors|fixed|generated|base|endings|ones] [--first] [--trace]
       compare guarded [--cases N] [--seed S]
       compare brute [--nets N] [--runs N] [--seed S]
       compare bench
       compare repeat OPERATION [--events N] [--times N]
       compare print < INPUT      what the program prints for that input, by the simulator
Options of compare, guarded and brute: --subject FILE.so judges that library in place of the one linked;
of compare: --peer judges the peer, by document 01 with 2026-04, 2026-05 and 2026-06, and --reference FILE.so holds the subject to it in place of the simulator.
Built without the feature lib and without --subject, brute and bench judge the simulator and compare refuses.";

const NO_LIBRARY: &str = "there is no library in this build to compare with the simulator: \
build with --features lib and PTI_LIB_DIR set to the folder of libpti.a (tests/run.sh does), or name one by --subject";

const SIMULATOR: compare::Reference = compare::Reference { now: &sim::SIMULATOR, before: [&sim::BEFORE[0], &sim::BEFORE[1], &sim::BEFORE[2]] };

fn library() -> Option<&'static dyn Subject> {
    #[cfg(feature = "lib")]
    return Some(&ffi::LINKED);
    #[cfg(not(feature = "lib"))]
    None
}

fn main() -> ExitCode {
    let words: Vec<String> = std::env::args().skip(1).collect();
    match run(&words) {
        Ok(true) => ExitCode::SUCCESS,
        Ok(false) => ExitCode::from(1),
        Err(what) => {
            eprintln!("compare: {what}");
            ExitCode::from(2)
        }
    }
}

/// Did the tests pass? An error is bad usage.
fn run(words: &[String]) -> Result<bool, String> {
    let (command, rest) = words.split_first().ok_or(USAGE)?;
    let mut options = Options { words: rest.to_vec() };
    match command.as_str() {
        "compare" => {
            let peer: Option<&'static dyn Subject> = if options.flag("--peer") { Some(&rival::Peer) } else { None };
            let subject = peer.or(options.library("--subject")?);
            let reference = options.library("--reference")?;
            let plan = compare::Plan {
                sources: if peer.is_some() { compare::Source::OF_PEER.to_vec() } else { options.sources()? },
                cases: options.number("--cases", 100_000)? as usize,
                seed: options.number("--seed", 1)?,
                enough: if options.flag("--first") { 1 } else { 5 },
                trace: options.flag("--trace"),
            };
            options.none_left()?;
            let reference = reference.map_or(SIMULATOR, |loaded| compare::Reference { now: loaded, before: [loaded; sim::Requests::BEFORE.len()] });
            Ok(compare::compare(subject.or(library()).ok_or(NO_LIBRARY)?, reference, &plan))
        }
        "guarded" => {
            let subject = options.library("--subject")?.or(library()).unwrap_or(&sim::SIMULATOR);
            let plan = compare::Plan {
                sources: compare::Source::ALL.to_vec(),
                cases: options.number("--cases", 20_000)? as usize,
                seed: options.number("--seed", 1)?,
                enough: 1,
                trace: false,
            };
            options.none_left()?;
            let seen = guarded::planted_are_seen();
            Ok(seen & guarded::stacks(subject) & compare::compare(&guarded::Guarded::new(subject), SIMULATOR, &plan))
        }
        "planted" => {
            guarded::plant(options.words.first().and_then(|word| word.parse().ok()).ok_or(USAGE)?);
            Ok(true)
        }
        "brute" => {
            let subject = options.library("--subject")?;
            let plan = brute::Plan {
                nets: options.number("--nets", 200)? as usize,
                runs: options.number("--runs", 400)? as usize,
                seed: options.number("--seed", 1)?,
            };
            options.none_left()?;
            Ok(brute::brute(subject.or(library()).unwrap_or(&sim::SIMULATOR), &plan))
        }
        "bench" => {
            options.none_left()?;
            bench::bench(library());
            Ok(true)
        }
        "print" => {
            options.none_left()?;
            print().map_err(|error| error.to_string())?;
            Ok(true)
        }
        "repeat" => {
            let (events, times) = (options.number("--events", 0)? as usize, options.number("--times", 1)?);
            let found = case::Operation::ALL.into_iter().find(|operation| options.flag(operation.name()));
            options.none_left()?;
            bench::repeat(library().unwrap_or(&sim::SIMULATOR), found.ok_or(USAGE)?, events, times);
            Ok(true)
        }
        _ => Err(USAGE.to_string()),
    }
}

/// Writes what the program prints for standard input, by the simulator.
fn print() -> std::io::Result<()> {
    let mut input = Vec::new();
    std::io::stdin().read_to_end(&mut input)?;
    let mut out = [0; sim::PROGRAM_ROOM];
    let answer = sim::SIMULATOR.program(&input, &mut out);
    std::io::stdout().write_all(&out[..answer.a as usize])
}

/// `--name value` and `--name` words.
struct Options {
    words: Vec<String>,
}

impl Options {
    fn flag(&mut self, name: &str) -> bool {
        let before = self.words.len();
        self.words.retain(|word| word != name);
        self.words.len() < before
    }

    fn word(&mut self, name: &str) -> Result<Option<String>, String> {
        let Some(at) = self.words.iter().position(|word| word == name) else {
            return Ok(None);
        };
        self.words.remove(at);
        if at == self.words.len() {
            return Err(format!("{name} needs a word"));
        }
        Ok(Some(self.words.remove(at)))
    }

    fn number(&mut self, name: &str, default: u64) -> Result<u64, String> {
        match self.word(name)? {
            Some(value) => value.parse().map_err(|_| format!("{name} needs a number, not {value}")),
            None => Ok(default),
        }
    }

    fn library(&mut self, name: &str) -> Result<Option<&'static dyn Subject>, String> {
        let file = self.word(name)?;
        file.map(|file| loaded::load(&file).map(|library| library as &dyn Subject)).transpose()
    }

    fn sources(&mut self) -> Result<Vec<compare::Source>, String> {
        let Some(name) = self.word("--only")? else {
            return Ok(compare::Source::ALL.to_vec());
        };
        let found = compare::Source::ALL.into_iter().find(|source| source.name() == name);
        Ok(vec![found.ok_or(format!("there is no source {name}"))?])
    }

    fn none_left(&self) -> Result<(), String> {
        match self.words.first() {
            Some(word) => Err(format!("{word} is not understood\n{USAGE}")),
            None => Ok(()),
        }
    }
}
