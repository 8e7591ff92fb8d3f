//! The peer (tests/peer), the unverified program that the library is measured against, held to the same comparison: what is
//! measured must do the same.

use crate::answer::Answer;
use crate::case::Subject;
use crate::sim::PROGRAM_ROOM;

pub struct Peer;

fn refused(refusal: peer::Refusal) -> Answer {
    Answer::refuses(refusal.number.into(), refusal.spot as u64)
}

impl Subject for Peer {
    fn name(&self) -> &'static str {
        "peer"
    }

    fn read_net(&self, net: &[u8]) -> Answer {
        peer::read_net(net).map_or_else(refused, |(places, transitions)| Answer::gives(places, transitions, 0))
    }

    fn build(&self, net: &[u8], log: &[u8], out: &mut [u8]) -> Answer {
        peer::build(net, log, out).map_or_else(refused, |bytes| Answer::gives(bytes, 0, 0))
    }

    fn check(&self, net: &[u8], record: &[u8], table: &mut [u8]) -> Answer {
        peer::check(net, record, table).map_or_else(refused, |found| Answer::gives(found.events, found.conditions, found.pairs))
    }

    fn replay(&self, net: &[u8], record: &[u8], arrangement: &[u8], rows: &mut [u16]) -> Answer {
        peer::replay(net, record, arrangement, rows).map_or_else(refused, |lines| Answer::gives(lines, 0, 0))
    }

    fn arrange(&self, net: &[u8], record: &[u8], out: &mut [u8]) -> Answer {
        peer::arrange(net, record, out).map_or_else(refused, |written| Answer::gives(written.bytes, written.lines, 0))
    }

    fn energy(&self, net: &[u8], record: &[u8], energy: &[u8]) -> Answer {
        peer::energy(net, record, energy).map_or_else(refused, |found| Answer::energies([found.usable, found.draw, found.left].map(f64::to_bits)))
    }

    fn refused_line(&self, net: &[u8], second: &[u8], choice: u8, line: u64) -> Answer {
        let shown = peer::refused_line(net, second, choice.into(), line as usize);
        let text = if choice == 0 { net } else { second };
        shown.refused.map_or_else(|| Answer::gives(shown.part.as_ptr() as usize - text.as_ptr() as usize, shown.part.len(), 0), refused)
    }

    fn program(&self, input: &[u8], out: &mut [u8; PROGRAM_ROOM]) -> Answer {
        Answer::gives(peer::program(input, out), 0, 0)
    }
}
