//! Names of places and transitions, from a small file: lines `P,number,name` and `T,number,name`. Empty lines, and lines that
//! begin with `#`, say nothing.

use crate::texts;
use pti::NetSize;
use std::collections::BTreeMap;

/// No name is longer: a picture and a table have to hold it.
const LONGEST: usize = 40;

#[derive(Clone, Debug, Default)]
pub struct Names {
    places: BTreeMap<usize, String>,
    transitions: BTreeMap<usize, String>,
}

impl Names {
    /// The names of a file's text, or the number of the line that is wrong and what is.
    pub fn of(text: &[u8]) -> Result<Names, (usize, String)> {
        let mut names = Names::default();
        for (index, line) in text.split(|byte| *byte == b'\n').enumerate() {
            let line = line.strip_suffix(b"\r").unwrap_or(line);
            let line = std::str::from_utf8(line).map_err(|_| (index + 1, "it is not UTF-8".to_string()))?;
            if !line.trim().is_empty() && !line.starts_with('#') {
                names.enter(line).map_err(|what| (index + 1, what))?;
            }
        }
        Ok(names)
    }

    fn enter(&mut self, line: &str) -> Result<(), String> {
        let form = "it is not P,number,name or T,number,name";
        let mut fields = line.splitn(3, ',');
        let (letter, number, name) = (fields.next(), fields.next(), fields.next());
        let (named, what) = match letter {
            Some("P") => (&mut self.places, "place"),
            Some("T") => (&mut self.transitions, "transition"),
            _ => return Err(form.to_string()),
        };
        let number: usize = number.and_then(|digits| texts::number(digits.trim())).ok_or(form)?;
        let name = name.map(str::trim).filter(|name| !name.is_empty()).ok_or(form)?;
        if name.chars().count() > LONGEST || name.chars().any(char::is_control) {
            return Err(format!("a name has at most {LONGEST} characters, each of which can be seen"));
        }
        match named.insert(number, name.to_string()) {
            Some(_) => Err(format!("{what} {number} has a name already")),
            None => Ok(()),
        }
    }

    /// Something that has a name and is not in the net.
    pub fn beyond(&self, size: NetSize) -> Option<String> {
        let place = self.places.keys().find(|place| **place >= size.places).map(|place| format!("place {place}"));
        place.or_else(|| self.transitions.keys().find(|transition| **transition >= size.transitions).map(|transition| format!("transition {transition}")))
    }

    pub fn place(&self, place: usize) -> Option<&str> {
        self.places.get(&place).map(String::as_str)
    }

    pub fn transition(&self, transition: usize) -> Option<&str> {
        self.transitions.get(&transition).map(String::as_str)
    }
}

#[cfg(test)]
mod tests {
    use super::*;

    fn wrong(text: &[u8]) -> (usize, String) {
        Names::of(text).unwrap_err()
    }

    #[test]
    fn names_are_read() {
        let names = Names::of("# the drive\n\nP,1, dirty block \r\nT,0,write, acknowledged\nP,0,Böck\n".as_bytes()).unwrap();
        assert_eq!((names.place(0), names.place(1), names.place(2)), (Some("Böck"), Some("dirty block"), None));
        assert_eq!((names.transition(0), names.transition(1)), (Some("write, acknowledged"), None));
        assert_eq!(names.beyond(NetSize { places: 2, transitions: 1 }), None);
        assert_eq!(names.beyond(NetSize { places: 1, transitions: 1 }), Some("place 1".to_string()));
        assert_eq!(names.beyond(NetSize { places: 2, transitions: 0 }), Some("transition 0".to_string()));
    }

    #[test]
    fn wrong_lines_are_told() {
        for line in ["Q,0,x", "P", "P,0", "P,0,", "P,0, ", "P,,x", "P,-1,x", "P,+1,x", "P,x,x", "p,0,x", ",0,x"] {
            assert_eq!(wrong(format!("P,1,one\n{line}\n").as_bytes()), (2, "it is not P,number,name or T,number,name".to_string()), "{line}");
        }
        assert_eq!(wrong(b"P,1,one\nT,1,two\nP,1,three").0, 3);
        assert_eq!(wrong(b"P,1,a\tb").0, 1);
        assert_eq!(wrong(format!("P,1,{}", "a".repeat(41)).as_bytes()).0, 1);
        assert_eq!(wrong(b"\nP,1,\xff").0, 2);
    }
}
