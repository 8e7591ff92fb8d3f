//! A tour of the crate `pti` (rust/pti): builds the record of a net and a step log, checks it, writes its shortest arrangement and
//! replays that. With an energy text it says what the events draw from the hold-up capacitor and what is left. Where the net, the
//! log or the energy text is refused, it shows the refused line.
//!
//!   PTI_LIB_DIR=$PWD/target/staticlib cargo run --offline --manifest-path tests/link/rust/Cargo.toml NET LOG [--energy FILE]

use pti::{Choice, Energies, Order, Refusal, Relation, Spot, Text};
use std::process::ExitCode;

fn main() -> ExitCode {
    let words: Vec<String> = std::env::args().skip(1).collect();
    let (net, log, energy) = match words.iter().map(String::as_str).collect::<Vec<&str>>().as_slice() {
        [net, log] => (*net, *log, None),
        [net, log, "--energy", energy] => (*net, *log, Some(*energy)),
        _ => {
            eprintln!("usage: tour NET LOG [--energy FILE]");
            return ExitCode::from(2);
        }
    };
    let read = |path: &str| std::fs::read(path).map_err(|error| eprintln!("{path}: {error}"));
    let (Ok(net), Ok(log), Ok(energy)) = (read(net), read(log), energy.map(read).transpose()) else {
        return ExitCode::from(2);
    };
    match tour(&net, &log, energy.as_deref()) {
        Ok(()) => ExitCode::SUCCESS,
        Err(refusal) => {
            show_refused(&net, &log, energy.as_deref().unwrap_or_default(), refusal);
            ExitCode::from(1)
        }
    }
}

fn tour(net: &[u8], log: &[u8], energy: Option<&[u8]>) -> Result<(), Refusal> {
    let record = pti::build(net, log)?;
    println!("record: bytes {}", record.len());
    print!("{}", shown(&record));

    let order = pti::check(net, &record)?;
    println!("check: events {}, conditions {}, independent pairs {}", order.events(), order.conditions(), order.independent_pairs());
    show_order(&order);

    let arrangement = pti::arrange(net, &record)?;
    println!("arrangement: lines {}", arrangement.lines);
    print!("{}", shown(&arrangement.text));

    let markings = pti::replay(net, &record, &arrangement.text)?;
    println!("replay: lines {}, and the marking after each", markings.lines());
    for (line, marking) in markings.iter().enumerate() {
        let counts: String = marking.iter().map(|count| format!(" {count}")).collect();
        println!("{line}:{counts}");
    }

    if let Some(energy) = energy {
        show_energies(pti::energy(net, &record, energy)?);
    }
    Ok(())
}

/// A line for each event that is bound to another; two that are always together are each not later than the other.
fn show_order(order: &Order) {
    for e in 0..order.events() {
        for f in 0..order.events() {
            match order.relation(e, f) {
                Some(Relation::StrictlyBefore) => println!("{e} strictly before {f}"),
                Some(Relation::NotLater | Relation::Together) => println!("{e} not later than {f}"),
                _ => (),
            }
        }
    }
}

/// What is left is below 0 where the capacitor gives less than the events draw.
fn show_energies(Energies { usable, draw, left }: Energies) {
    print!("energy: the capacitor gives {usable:.1} µJ between full and cutoff, the events draw {draw:.1} µJ, ");
    if left < 0.0 {
        println!("and it falls short by {:.1} µJ", -left);
    } else {
        println!("{left:.1} µJ are left");
    }
}

fn show_refused(net: &[u8], log: &[u8], energy: &[u8], refusal: Refusal) {
    println!("refused: {}, spot {}", refusal.number(), refusal.spot().number());
    let Spot::Line(text, line) = refusal.spot() else { return };
    let (choice, lines) = match text {
        Text::Net => (Choice::Net, net),
        Text::Log => (Choice::Second, log),
        Text::Energy => (Choice::Second, energy),
        // The library wrote these two itself, and it accepts what it writes.
        Text::Record | Text::Arrangement => return,
    };
    if let Ok(range) = pti::refused_line(net, lines, choice, line) {
        println!("line {line} of the {text}: {}", shown(&lines[range]));
    }
}

fn shown(text: &[u8]) -> String {
    String::from_utf8_lossy(text).into_owned()
}
