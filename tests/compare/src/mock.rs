//! The simulator behind the library's C interface: stands in for libpti where the tests themselves are tested
//! (mutants.sh), or where the library is not built. The root of a crate of its own, compiled by rustc alone:
//!   rustc --edition 2021 -O --crate-type staticlib --crate-name pti src/mock.rs -o libpti.a

mod answer;
#[allow(dead_code)]
mod case;
#[allow(dead_code)]
mod sim;

use answer::{Answer, EnergyAnswer};
use case::{whole, Subject};
use sim::{SIMULATOR, PROGRAM_ROOM};
use std::slice::{from_raw_parts, from_raw_parts_mut};

#[no_mangle]
unsafe extern "C" fn pti_read_net(net: *const u8, net_len: usize) -> Answer {
    SIMULATOR.read_net(from_raw_parts(net, net_len))
}

#[no_mangle]
unsafe extern "C" fn pti_build(net: *const u8, net_len: usize, log: *const u8, log_len: usize, out: *mut u8, out_len: usize) -> Answer {
    SIMULATOR.build(from_raw_parts(net, net_len), from_raw_parts(log, log_len), from_raw_parts_mut(out, out_len))
}

#[no_mangle]
unsafe extern "C" fn pti_check(net: *const u8, net_len: usize, record: *const u8, record_len: usize, table: *mut u8, table_len: usize) -> Answer {
    SIMULATOR.check(from_raw_parts(net, net_len), from_raw_parts(record, record_len), from_raw_parts_mut(table, table_len))
}

#[no_mangle]
unsafe extern "C" fn pti_replay(
    net: *const u8,
    net_len: usize,
    record: *const u8,
    record_len: usize,
    arrangement: *const u8,
    arrangement_len: usize,
    rows: *mut u16,
    rows_len: usize,
) -> Answer {
    let (net, record) = (from_raw_parts(net, net_len), from_raw_parts(record, record_len));
    SIMULATOR.replay(net, record, from_raw_parts(arrangement, arrangement_len), from_raw_parts_mut(rows, rows_len))
}

#[no_mangle]
unsafe extern "C" fn pti_arrange(net: *const u8, net_len: usize, record: *const u8, record_len: usize, out: *mut u8, out_len: usize) -> Answer {
    SIMULATOR.arrange(from_raw_parts(net, net_len), from_raw_parts(record, record_len), from_raw_parts_mut(out, out_len))
}

#[no_mangle]
unsafe extern "C" fn pti_energy(net: *const u8, net_len: usize, record: *const u8, record_len: usize, energy: *const u8, energy_len: usize) -> EnergyAnswer {
    SIMULATOR.energy(from_raw_parts(net, net_len), from_raw_parts(record, record_len), from_raw_parts(energy, energy_len)).into()
}

#[no_mangle]
unsafe extern "C" fn pti_refused_line(net: *const u8, net_len: usize, second: *const u8, second_len: usize, choice: u8, line: usize) -> Answer {
    SIMULATOR.refused_line(from_raw_parts(net, net_len), from_raw_parts(second, second_len), choice, line as u64)
}

#[no_mangle]
unsafe extern "C" fn pti_program(input: *const u8, input_len: usize, out: *mut u8) -> Answer {
    SIMULATOR.program(from_raw_parts(input, input_len), whole(from_raw_parts_mut(out, PROGRAM_ROOM)))
}
