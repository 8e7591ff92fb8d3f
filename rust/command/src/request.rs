//! What the words behind `pti` ask for.

use crate::commands::{self, Command};
use crate::names::Names;
use crate::texts::{self, Source};
use std::ffi::{OsStr, OsString};

/// A command, and all that it works on, read.
pub struct Request {
    pub command: &'static Command,
    pub texts: Vec<Source>,
    /// The number of a line, for the command that asks for one.
    pub line: usize,
    pub names: Names,
    /// Where the output goes, if not to standard output.
    pub output: Option<OsString>,
    options: Vec<&'static str>,
}

/// Why nothing could be asked of the library. The exit status is 2.
pub enum Failure {
    /// The words are wrong; the command whose usage helps, if they name one.
    Misuse(Option<&'static Command>, String),
    /// A file cannot be read or written, or is no file of names.
    Unusable(String),
}

/// The words, told apart.
pub enum Asked {
    Help(Option<&'static Command>),
    Version,
    Call(Call),
}

/// A command with its words, before a file is read.
pub struct Call {
    command: &'static Command,
    operands: Vec<OsString>,
    options: Vec<&'static str>,
    names: Option<OsString>,
    output: Option<OsString>,
}

pub fn ask(words: &[OsString]) -> Result<Asked, Failure> {
    let Some((first, rest)) = words.split_first() else {
        return Err(Failure::Misuse(None, "a command is missing".to_string()));
    };
    match first.to_str() {
        Some("-h" | "--help") => Ok(Asked::Help(None)),
        Some("-V" | "--version") => Ok(Asked::Version),
        Some("help") => match rest {
            [] => Ok(Asked::Help(None)),
            [name, ..] => Ok(Asked::Help(Some(command(name)?))),
        },
        _ => call(command(first)?, rest),
    }
}

fn command(name: &OsStr) -> Result<&'static Command, Failure> {
    let found = commands::ALL.iter().find(|command| name == command.name);
    found.ok_or_else(|| {
        let name = texts::named(name);
        let near = nearest(&name, commands::ALL.iter().map(|command| command.name));
        Failure::Misuse(None, format!("there is no command {name}{near}"))
    })
}

/// Options may stand anywhere; behind `--` there are none.
fn call(command: &'static Command, words: &[OsString]) -> Result<Asked, Failure> {
    let mut call = Call { command, operands: Vec::new(), options: Vec::new(), names: None, output: None };
    let mut words = words.iter();
    while let Some(word) = words.next() {
        match word.to_str() {
            Some("--") => call.operands.extend(words.by_ref().cloned()),
            Some("-h" | "--help") => return Ok(Asked::Help(Some(command))),
            Some(option) if option.len() > 1 && option.starts_with('-') => call.option(option, &mut words)?,
            _ => call.operands.push(word.clone()),
        }
    }
    Ok(Asked::Call(call))
}

impl Call {
    /// An option, with the word that it takes, behind it or behind `=`.
    fn option<'a>(&mut self, option: &str, words: &mut impl Iterator<Item = &'a OsString>) -> Result<(), Failure> {
        let (name, joined) = match option.split_once('=') {
            Some((name, value)) if name.starts_with("--") => (name, Some(OsString::from(value))),
            _ => (option, None),
        };
        let known = self.command.options().find(|known| known.name == name || known.short == Some(name));
        let known = known.ok_or_else(|| {
            let near = nearest(name, self.command.options().map(|known| known.name));
            self.misuse(format!("there is no option {}{near}", texts::named(OsStr::new(name))))
        })?;
        let slot = match known.name {
            "--names" => &mut self.names,
            "--output" => &mut self.output,
            _ if joined.is_some() => return Err(self.misuse(format!("{} takes no word", known.name))),
            _ => {
                self.options.push(known.name);
                return Ok(());
            }
        };
        if slot.is_some() {
            return Err(self.misuse(format!("{} stands twice", known.name)));
        }
        *slot = joined.or_else(|| words.next().cloned());
        if slot.is_none() {
            return Err(self.misuse(format!("{} needs a file behind it", known.name)));
        }
        Ok(())
    }

    /// Reads the files.
    pub fn read(self) -> Result<Request, Failure> {
        let operands = self.command.operands_of(self.operands.len()).ok_or_else(|| self.misuse(self.command.takes()))?;
        let all = || self.operands.iter().chain(&self.names);
        if all().filter(|word| texts::is_standard_input(word)).count() > 1 {
            return Err(self.misuse("standard input can be read only once".to_string()));
        }
        let mut line = 0;
        let mut read = Vec::new();
        for (operand, word) in operands.into_iter().zip(&self.operands) {
            match operand {
                "LINE" => line = self.number(word)?,
                _ => read.push(texts::read(operand, word)?),
            }
        }
        let names = self.names.as_ref().map(names).transpose()?.unwrap_or_default();
        Ok(Request { command: self.command, texts: read, line, names, output: self.output, options: self.options })
    }

    fn number(&self, word: &OsString) -> Result<usize, Failure> {
        let number = word.to_str().and_then(texts::number);
        number.ok_or_else(|| self.misuse(format!("LINE is a number, not {}", texts::named(word))))
    }

    fn misuse(&self, what: String) -> Failure {
        Failure::Misuse(Some(self.command), what)
    }
}

/// The names of a file.
fn names(file: &OsString) -> Result<Names, Failure> {
    let source = texts::read("NAMES", file)?;
    Names::of(&source.bytes).map_err(|(line, what)| Failure::Unusable(format!("{}:{line}: no line of names: {what}", source.file)))
}

impl Request {
    pub fn has(&self, option: &str) -> bool {
        self.options.contains(&option)
    }

    /// The text that the command calls so; empty where it has none.
    pub fn text(&self, operand: &str) -> &[u8] {
        self.source(operand).map_or(&[], |source| &source.bytes)
    }

    pub fn source(&self, operand: &str) -> Option<&Source> {
        self.texts.iter().find(|source| source.operand == operand)
    }

    /// A name for what the net does not have is a mistake, in the names or in the net.
    pub fn names_fit(&self) -> Result<(), Failure> {
        match pti::read_net(self.text("NET")).ok().and_then(|size| self.names.beyond(size)) {
            Some(what) => Err(Failure::Unusable(format!("the names have {what}, which the net does not have"))),
            None => Ok(()),
        }
    }
}

/// A name that was perhaps meant.
fn nearest<'a>(name: &str, known: impl Iterator<Item = &'a str>) -> String {
    let near = known.map(|other| (distance(name, other), other)).min();
    near.filter(|(far, _)| *far <= 2).map_or(String::new(), |(_, other)| format!("; did you mean {other}?"))
}

/// How many letters have to be put in, left out or changed to make one word the other.
fn distance(one: &str, other: &str) -> usize {
    let other: Vec<char> = other.chars().collect();
    let mut row: Vec<usize> = (0..=other.len()).collect();
    for (i, letter) in one.chars().enumerate() {
        let mut above = row[0];
        row[0] = i + 1;
        for j in 0..other.len() {
            let changed = above + usize::from(letter != other[j]);
            above = row[j + 1];
            row[j + 1] = changed.min(above + 1).min(row[j] + 1);
        }
    }
    row[other.len()]
}

#[cfg(test)]
mod tests {
    use super::*;

    #[test]
    fn near_names_are_found() {
        assert_eq!(distance("check", "chek"), 1);
        assert_eq!(distance("kitten", "sitting"), 3);
        assert_eq!(distance("", "net"), 3);
        assert_eq!(nearest("chek", ["net", "check"].into_iter()), "; did you mean check?");
        assert_eq!(nearest("frobnicate", ["net", "check"].into_iter()), "");
    }
}
