//! The refused line: refusal 46.

use super::text::lines;
use super::{refuse, Refusal, Requests};
use crate::answer::Answer;

/// Where the line starts in the chosen text, and its length without the ending.
pub fn find(requests: Requests, net: &[u8], second: &[u8], choice: u8, line: u64) -> Result<Answer, Refusal> {
    let text = match choice {
        0 => net,
        1 => second,
        _ => return refuse(46, line),
    };
    match lines(requests, text).iter().find(|found| found.number == line) {
        Some(found) => Ok(Answer::gives(found.start, found.bytes.len(), 0)),
        None => refuse(46, line),
    }
}
