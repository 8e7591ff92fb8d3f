//! The texts of a request: files, or standard input.

use crate::request::Failure;
use std::ffi::{OsStr, OsString};
use std::fs::File;
use std::io::{self, IsTerminal, Read};

/// No text that is accepted has 65,536 bytes. So much of a longer one is read to say what is wrong with it, and no more.
const MOST_BYTES: u64 = 16 << 20;

/// A text, and where it came from.
pub struct Source {
    /// What the command calls it, as `NET`.
    pub operand: &'static str,
    /// The file's name, as messages have it.
    pub file: String,
    pub bytes: Vec<u8>,
}

pub fn is_standard_input(file: &OsStr) -> bool {
    file == "-"
}

/// The text of a file, or of standard input.
pub fn read(operand: &'static str, file: &OsString) -> Result<Source, Failure> {
    let name = if is_standard_input(file) { "standard input".to_string() } else { named(file) };
    let mut bytes = Vec::new();
    let got = if is_standard_input(file) {
        if io::stdin().is_terminal() {
            eprintln!("pti: reading {operand} from standard input");
        }
        io::stdin().lock().take(MOST_BYTES + 1).read_to_end(&mut bytes)
    } else {
        File::open(file).and_then(|from| from.take(MOST_BYTES + 1).read_to_end(&mut bytes))
    };
    got.map_err(|error| Failure::Unusable(format!("cannot read {name}: {}", plain(&error))))?;
    if bytes.len() as u64 > MOST_BYTES {
        return Err(Failure::Unusable(format!("cannot read {name}: it is over 16 MiB, and no text that is accepted has 64 KiB")));
    }
    Ok(Source { operand, file: name, bytes })
}

/// The number that digits say, without a sign.
pub fn number(digits: &str) -> Option<usize> {
    digits.bytes().all(|byte| byte.is_ascii_digit()).then(|| digits.parse().ok()).flatten()
}

/// What the system says of an error, without its number.
pub fn plain(error: &io::Error) -> String {
    let words = error.to_string();
    match words.find(" (os error") {
        Some(end) => words[..end].to_string(),
        None => words,
    }
}

/// Bytes of a text as a person can see them: what is not plain text is written as \xNN, so that a damaged line shows what it holds.
pub fn shown(bytes: &[u8]) -> String {
    bytes.iter().map(|byte| if matches!(byte, b' '..=b'~') && *byte != b'\\' { char::from(*byte).to_string() } else { format!("\\x{byte:02X}") }).collect()
}

/// A word of the command line, as the name of a file. Its letters may be of any language, but it cannot disturb the terminal.
pub fn named(word: &OsStr) -> String {
    let mut name = String::new();
    for letter in word.to_string_lossy().chars() {
        if letter.is_control() || letter == '\\' {
            name.push_str(&letter.to_string().bytes().map(|byte| format!("\\x{byte:02X}")).collect::<String>());
        } else {
            name.push(letter);
        }
    }
    name
}

#[cfg(test)]
mod tests {
    use super::*;

    #[test]
    fn what_cannot_be_seen_is_written_out() {
        assert_eq!(shown(b"S,0"), "S,0");
        assert_eq!(shown(b"S,\0\xff\r\\ x"), "S,\\x00\\xFF\\x0D\\x5C x");
        assert_eq!(shown("S,µ~ ".as_bytes()), "S,\\xC2\\xB5~ ");
        assert_eq!(shown(b"\x1b[2J\x7f"), "\\x1B[2J\\x7F");
    }

    #[test]
    fn names_keep_their_letters() {
        assert_eq!(named(OsStr::new("net µ")), "net µ");
        assert_eq!(named(OsStr::new("a\n\\\u{9b}2J")), "a\\x0A\\x5C\\xC2\\x9B2J");
    }
}
