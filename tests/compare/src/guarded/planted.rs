//! That the guards see: accesses outside of what is lent, planted into the simulator. Each is tried in a process of its own,
//! which must end at the access.

use super::Guarded;
use crate::answer::Answer;
use crate::case::{run, Case, Operation, Subject};
use crate::sim::{SIMULATOR, PROGRAM_ROOM};
use crate::vectors::{Text, CASE_B, DRIVE};
use std::process::Command;
use std::ptr::{read_volatile, write_volatile};

#[derive(Clone, Copy, Debug)]
enum Access {
    ReadBehind,
    ReadBefore,
    WriteBehind,
    WriteBefore,
    WriteInside,
}

/// One access, at a text or, with a number past the texts, at the buffer.
#[derive(Clone, Copy, Debug)]
struct Planted {
    operation: Operation,
    which: usize,
    access: Access,
}

fn all() -> Vec<Planted> {
    let mut all = Vec::new();
    for operation in Operation::ALL {
        let texts = operation.text_names().len();
        let buffers = (operation.stated_room() > 0) as usize;
        for which in 0..texts + buffers {
            let accesses = [Access::ReadBehind, Access::ReadBefore, Access::WriteBehind, Access::WriteBefore, Access::WriteInside];
            let outside = accesses.into_iter().filter(|access| which < texts || !matches!(access, Access::WriteInside));
            all.extend(outside.map(|access| Planted { operation, which, access }));
        }
    }
    all
}

impl Planted {
    fn touch(&self, operation: Operation, texts: &[&[u8]], buffer: (*mut u8, usize)) {
        if operation != self.operation {
            return;
        }
        let texts = texts.iter().map(|text| (text.as_ptr().cast_mut(), text.len()));
        let (start, length) = texts.chain([buffer]).nth(self.which).expect("a text or the buffer");
        // The very accesses that must end the process: not safe.
        unsafe {
            match self.access {
                Access::ReadBehind => drop(read_volatile(start.wrapping_add(length))),
                Access::ReadBefore => drop(read_volatile(start.wrapping_sub(1))),
                Access::WriteBehind => write_volatile(start.wrapping_add(length), 0),
                Access::WriteBefore => write_volatile(start.wrapping_sub(1), 0),
                Access::WriteInside => write_volatile(start, 0),
            }
        }
    }
}

fn bytes<T>(buffer: &mut [T]) -> (*mut u8, usize) {
    (buffer.as_mut_ptr().cast(), size_of_val(buffer))
}

impl Subject for Planted {
    fn name(&self) -> &'static str {
        "planted"
    }

    fn read_net(&self, net: &[u8]) -> Answer {
        self.touch(Operation::ReadNet, &[net], bytes::<u8>(&mut []));
        SIMULATOR.read_net(net)
    }

    fn build(&self, net: &[u8], log: &[u8], out: &mut [u8]) -> Answer {
        self.touch(Operation::Build, &[net, log], bytes(out));
        SIMULATOR.build(net, log, out)
    }

    fn check(&self, net: &[u8], record: &[u8], table: &mut [u8]) -> Answer {
        self.touch(Operation::Check, &[net, record], bytes(table));
        SIMULATOR.check(net, record, table)
    }

    fn replay(&self, net: &[u8], record: &[u8], arrangement: &[u8], rows: &mut [u16]) -> Answer {
        self.touch(Operation::Replay, &[net, record, arrangement], bytes(rows));
        SIMULATOR.replay(net, record, arrangement, rows)
    }

    fn arrange(&self, net: &[u8], record: &[u8], out: &mut [u8]) -> Answer {
        self.touch(Operation::Arrange, &[net, record], bytes(out));
        SIMULATOR.arrange(net, record, out)
    }

    fn energy(&self, net: &[u8], record: &[u8], energy: &[u8]) -> Answer {
        self.touch(Operation::Energy, &[net, record, energy], bytes::<u8>(&mut []));
        SIMULATOR.energy(net, record, energy)
    }

    fn refused_line(&self, net: &[u8], second: &[u8], choice: u8, line: u64) -> Answer {
        self.touch(Operation::RefusedLine, &[net, second], bytes::<u8>(&mut []));
        SIMULATOR.refused_line(net, second, choice, line)
    }

    fn program(&self, input: &[u8], out: &mut [u8; PROGRAM_ROOM]) -> Answer {
        self.touch(Operation::Program, &[input], bytes(out));
        SIMULATOR.program(input, out)
    }
}

fn case_of(operation: Operation) -> Case {
    let [net, log, record, arrangement, energy, input] = [DRIVE, "S,0,2", CASE_B, "G,0,1", "K,1,1,0 J,0 J,0 J,0", "="].map(|words| Text::from(words).0);
    match operation {
        Operation::ReadNet => Case::new(operation, &[&net]),
        Operation::Build => Case::new(operation, &[&net, &log]),
        Operation::Check | Operation::Arrange => Case::new(operation, &[&net, &record]),
        Operation::Replay => Case::new(operation, &[&net, &record, &arrangement]),
        Operation::Energy => Case::new(operation, &[&net, &record, &energy]),
        Operation::RefusedLine => Case::new(operation, &[&net, &log]).asking(1, 1),
        Operation::Program => Case::new(operation, &[&input]),
    }
}

/// Makes the planted access of that number. Comes back only if it was not seen.
pub fn plant(number: usize) {
    if let Some(planted) = all().get(number) {
        run(&Guarded::new(planted), &case_of(planted.operation));
    }
}

/// Is every planted access seen?
pub fn planted_are_seen() -> bool {
    let program = std::env::current_exe().expect("this program");
    let (all, mut unseen) = (all(), Vec::new());
    for (number, planted) in all.iter().enumerate() {
        let ended = Command::new(&program).args(["planted", &number.to_string()]).output().expect("this program runs");
        let told = String::from_utf8_lossy(&ended.stdout).contains(&format!("what was lent, in {}", planted.operation.name()));
        if ended.status.code() != Some(1) || !told {
            unseen.push(planted);
        }
    }
    println!("guarded: {} of {} planted accesses seen", all.len() - unseen.len(), all.len());
    unseen.iter().for_each(|planted| println!("FAILED: not seen: {planted:?}"));
    unseen.is_empty()
}
