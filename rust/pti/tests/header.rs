//! What `pti::sys` declares is what include/pti.h does, name by name and type by type.

use pti::sys::{Answer, EnergyAnswer};
use std::mem::{offset_of, size_of};

const HEADER: &str = include_str!("../../../include/pti.h");
const DECLARED: &str = include_str!("../src/sys.rs");

/// A function of the header as Rust declares it.
fn in_rust(function: &str) -> String {
    let (answer, rest) = function.split_once(' ').unwrap();
    let (name, parameters) = rest.strip_suffix(");").unwrap().split_once('(').unwrap();
    let answer = match answer {
        "pti_answer" => "Answer",
        "pti_energy_answer" => "EnergyAnswer",
        _ => panic!("{function}"),
    };
    let parameters: Vec<String> = parameters.split(", ").map(parameter).collect();
    format!("pub fn {name}({}) -> {answer}", parameters.join(", "))
}

fn parameter(of_c: &str) -> String {
    let (kind, name) = of_c.rsplit_once(' ').unwrap();
    match (kind, name.strip_prefix('*')) {
        ("const uint8_t", Some(name)) => format!("{name}: *const u8"),
        ("uint8_t", Some(name)) => format!("{name}: *mut u8"),
        ("uint16_t", Some(name)) => format!("{name}: *mut u16"),
        ("uint8_t", None) => format!("{name}: u8"),
        ("size_t", None) => format!("{name}: usize"),
        _ => panic!("{of_c}"),
    }
}

#[test]
fn functions() {
    let due: Vec<String> = HEADER.lines().filter(|line| line.starts_with("pti_")).map(in_rust).collect();
    let (_, block) = DECLARED.split_once("extern \"C\" {").unwrap();
    let code: Vec<&str> = block.lines().map(str::trim).filter(|line| !line.starts_with("///")).collect();
    let functions = code.join(" ").replace("( ", "(").replace(", )", ")");
    let declared: Vec<&str> = functions.split(';').map(str::trim).filter(|function| *function != "}").collect();
    assert_eq!(declared, due);
    assert_eq!(due.len(), 8);
}

#[test]
fn sizes() {
    let due: Vec<(&str, &str)> = HEADER.lines().filter_map(|line| line.strip_prefix("#define PTI_")?.split_once(' ')).collect();
    let declared = DECLARED.lines().filter_map(|line| line.strip_prefix("pub const ")?.strip_suffix(';')?.split_once(": usize = "));
    let declared: Vec<(&str, String)> = declared.map(|(name, size)| (name, size.replace('_', ""))).collect();
    assert_eq!(declared.iter().map(|(name, size)| (*name, size.as_str())).collect::<Vec<_>>(), due);
    assert_eq!(due.len(), 5);
}

#[test]
fn answers() {
    assert!(HEADER.contains("typedef struct { uint64_t number, spot, a, b, c; } pti_answer;"));
    assert!(HEADER.contains("typedef struct { uint64_t number, spot; double usable, draw, left; } pti_energy_answer;"));
    let plain = [offset_of!(Answer, number), offset_of!(Answer, spot), offset_of!(Answer, a), offset_of!(Answer, b), offset_of!(Answer, c)];
    let energy = [offset_of!(EnergyAnswer, number), offset_of!(EnergyAnswer, spot), offset_of!(EnergyAnswer, usable)];
    let rest = [offset_of!(EnergyAnswer, draw), offset_of!(EnergyAnswer, left)];
    assert_eq!((plain, size_of::<Answer>()), ([0, 8, 16, 24, 32], 40));
    assert_eq!((energy, rest, size_of::<EnergyAnswer>()), ([0, 8, 16], [24, 32], 40));
}
