//! The command `pti`: run records of PTI-nets built, checked, arranged, replayed, drawn, over the verified library. The library
//! judges; this reads files, shows what it answers and says a refusal in words.

mod commands;
mod draw;
mod json;
mod names;
mod refused;
mod relations;
mod request;
mod run;
mod tables;
mod texts;

use request::{ask, Asked, Failure, Request};
use std::ffi::OsString;
use std::io::{self, ErrorKind, Write};
use std::process::ExitCode;

/// The exit status: 0 accepted, 1 refused, 2 misuse or a file that cannot be read or written.
fn main() -> ExitCode {
    let words: Vec<OsString> = std::env::args_os().skip(1).collect();
    match answer(&words) {
        Ok(accepted) => ExitCode::from(u8::from(!accepted)),
        Err(failure) => {
            say(&told(failure));
            ExitCode::from(2)
        }
    }
}

/// Was it accepted?
fn answer(words: &[OsString]) -> Result<bool, Failure> {
    match ask(words)? {
        Asked::Help(None) => print(commands::help().as_bytes()).map(|()| true),
        Asked::Help(Some(command)) => print(command.help().as_bytes()).map(|()| true),
        Asked::Version => print(concat!("pti ", env!("CARGO_PKG_VERSION"), "\n").as_bytes()).map(|()| true),
        Asked::Call(call) => carry_out(&call.read()?),
    }
}

fn carry_out(request: &Request) -> Result<bool, Failure> {
    request.names_fit()?;
    match (request.command.act)(request) {
        Ok(printed) => deliver(request, &printed).map(|()| true),
        Err(refusal) => {
            let report = refused::report(refusal, request);
            if request.has("--json") {
                print(format!("{}\n", report.json()).as_bytes())?;
            }
            say(&report.words(request));
            Ok(false)
        }
    }
}

/// The output goes where it was asked to.
fn deliver(request: &Request, bytes: &[u8]) -> Result<(), Failure> {
    match &request.output {
        Some(file) if file != "-" => std::fs::write(file, bytes).map_err(|error| unwritable(&texts::named(file), &error)),
        _ => print(bytes),
    }
}

/// Whoever reads a pipe may have read enough: that is no failure.
fn print(bytes: &[u8]) -> Result<(), Failure> {
    let mut out = io::stdout().lock();
    match out.write_all(bytes).and_then(|()| out.flush()) {
        Err(error) if error.kind() != ErrorKind::BrokenPipe => Err(unwritable("standard output", &error)),
        _ => Ok(()),
    }
}

fn unwritable(file: &str, error: &io::Error) -> Failure {
    Failure::Unusable(format!("cannot write {file}: {}", texts::plain(error)))
}

/// To standard error. Where that is closed nobody can be told.
fn say(words: &str) {
    let _ = io::stderr().write_all(words.as_bytes());
}

fn told(failure: Failure) -> String {
    match failure {
        Failure::Unusable(what) => format!("pti: {what}\n"),
        Failure::Misuse(None, what) => format!("pti: {what}\n`pti --help` lists the commands\n"),
        Failure::Misuse(Some(command), what) => {
            format!("pti {0}: {what}\n{1}\n`pti {0} --help` says more\n", command.name, command.usage())
        }
    }
}
