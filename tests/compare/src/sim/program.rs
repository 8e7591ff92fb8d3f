//! The program: refusal 10, and what is printed.

use super::text::lines;
use super::{accepted, arranging, net, refuse, run, Refusal, Requests, LONGEST_INPUT, PROGRAM_ROOM};
use crate::answer::Answer;

/// Writes what the program prints, into a buffer that holds every answer.
pub fn run(requests: Requests, input: &[u8], out: &mut [u8; PROGRAM_ROOM]) -> Answer {
    let text = printed(requests, input).unwrap_or_else(|Refusal { number, spot }| format!("X,{number},{spot}\n"));
    Answer::gives(super::write(out, &text), 0, 0)
}

fn printed(requests: Requests, input: &[u8]) -> Result<String, Refusal> {
    let (net, log) = parts(requests, input)?;
    let parsed = net::read(requests, net)?;
    let text = run::read(&parsed, log)?.record(&parsed).text();
    let (_, record, order) = accepted(requests, net, text.as_bytes())?;
    let pairs = order.independent_pairs(requests);
    let arranged = arranging::lines(&order).len();
    Ok(format!("{text}Z,{},{},{pairs},{arranged}\n", record.events.len(), record.conditions.len()))
}

/// Net and log, parted by the first line that is `=` and ended.
fn parts(requests: Requests, input: &[u8]) -> Result<(&[u8], &[u8]), Refusal> {
    if input.len() > LONGEST_INPUT {
        return refuse(10, 0);
    }
    match lines(requests, input).iter().find(|line| line.bytes == b"=" && line.ended()) {
        Some(line) => Ok((&input[..line.start], &input[line.next()..])),
        None => refuse(10, 0),
    }
}
