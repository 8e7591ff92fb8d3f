//! Energy texts (02, 2026-05) for the nets and records of the other generators: any, at the ends of the ranges, with a draw in
//! a chosen proportion to the usable energy, so that differences of every sign and ties come about, and damaged.

use super::damage;
use crate::case::{Case, Operation};
use crate::rng::Rng;

const MOST: usize = 1_000_000;
const MOST_VOLTAGE: usize = 60_000;

/// Figures at the ends of the ranges and past them, at powers of two, too long, with needless zeros, and what is no number.
pub const FIGURES: [&str; 27] = [
    "0", "1", "2", "9999", "10000", "59999", "60000", "60001", "65535", "65536", "99999", "100000", "999999", "1000000", "1000001", "1048576", "9999999", "10000000", "99999999", "00", "01", "0000001", "00000001", "4294967296", "18446744073709551616", "-", "",
];

/// A case or two for each of the cases that check a record, on its texts.
pub fn cases(rng: &mut Rng, others: &[Case]) -> Vec<Case> {
    let mut cases = Vec::new();
    for checked in others.iter().filter(|case| case.operation == Operation::Check) {
        let (net, record) = (&checked.texts[0], &checked.texts[1]);
        for _ in 0..rng.between(1, 2) {
            let text = text(rng, transitions(net), &events(record));
            let text = if rng.chance(20) { damaged(rng, &text) } else { text };
            cases.push(Case::new(Operation::Energy, &[net, record, &text]));
        }
    }
    cases
}

/// How many lines `T` a net has.
fn transitions(net: &[u8]) -> usize {
    net.split(|byte| *byte == 10).filter(|line| *line == b"T").count()
}

/// The transitions of a record's events, as far as its lines can be read.
fn events(record: &[u8]) -> Vec<usize> {
    let text = String::from_utf8_lossy(record);
    text.lines().filter_map(|line| line.strip_prefix("E,")?.parse().ok()).collect()
}

fn text(rng: &mut Rng, transitions: usize, events: &[usize]) -> Vec<u8> {
    let (capacitor, loads) = match rng.below(6) {
        0 => (at_the_ends(rng), loads(rng, transitions, load_at_the_ends)),
        1 | 2 => in_proportion(rng, transitions, events.len()),
        3 => just_enough(rng, transitions, events),
        _ => (any_capacitor(rng), loads(rng, transitions, any_load)),
    };
    let [capacitance, full, cutoff] = capacitor;
    let lines = [format!("K,{capacitance},{full},{cutoff}")].into_iter().chain(loads);
    lines.map(|line| line + "\n").collect::<String>().into_bytes()
}

fn loads(rng: &mut Rng, transitions: usize, load: fn(&mut Rng) -> String) -> Vec<String> {
    (0..transitions).map(|_| load(rng)).collect()
}

/// As often small as great, up to the limit.
fn sized(rng: &mut Rng, most: usize) -> usize {
    let digits = rng.between(1, most.ilog2() as usize + 1);
    rng.below(1 << digits).min(most)
}

fn any_capacitor(rng: &mut Rng) -> [usize; 3] {
    let full = sized(rng, MOST_VOLTAGE);
    [sized(rng, MOST).max(1), full, rng.between(0, full)]
}

fn any_load(rng: &mut Rng) -> String {
    match rng.chance(40) {
        true => format!("J,{}", sized(rng, MOST)),
        false => format!("W,{},{}", sized(rng, MOST), sized(rng, MOST)),
    }
}

fn at_the_ends(rng: &mut Rng) -> [usize; 3] {
    let full = rng.pick(&[0, 1, MOST_VOLTAGE - 1, MOST_VOLTAGE]);
    let cutoff = rng.pick(&[0, full / 2, full.saturating_sub(1), full]);
    [rng.pick(&[1, 2, MOST - 1, MOST]), full, cutoff]
}

fn load_at_the_ends(rng: &mut Rng) -> String {
    let ends = [0, 1, MOST - 1, MOST];
    match rng.chance(30) {
        true => format!("J,{}", rng.pick(&ends)),
        false => format!("W,{},{}", rng.pick(&ends), rng.pick(&ends)),
    }
}

/// Loads that come to about so many times the usable energy. From twice on, digits of the usable energy may lie just
/// below the last one of what is left: half of the differences are ties there.
fn in_proportion(rng: &mut Rng, transitions: usize, events: usize) -> ([usize; 3], Vec<String>) {
    let capacitor = any_capacitor(rng);
    let [capacitance, full, cutoff] = capacitor;
    let usable = capacitance * (full * full - cutoff * cutoff) / 2_000_000;
    let quarters = rng.pick(&[2, 4, 9, 12, 14, 14, 20, 40, 400]);
    let each = usable * quarters / 4 / events.max(1);
    (capacitor, (0..transitions).map(|_| load_of(rng, each)).collect())
}

/// A load of about so much, or a pulse.
fn load_of(rng: &mut Rng, energy: usize) -> String {
    if energy <= MOST && rng.chance(50) {
        return format!("J,{energy}");
    }
    let time = rng.between(1, 1_000).max(energy / MOST + 1);
    format!("W,{},{}", energy / time + rng.below(2), time.min(MOST))
}

/// A capacitor that gives what the events draw, or a microjoule more or less: at 1 V above nothing a µF gives half a µJ.
fn just_enough(rng: &mut Rng, transitions: usize, events: &[usize]) -> ([usize; 3], Vec<String>) {
    let draws: Vec<usize> = (0..transitions).map(|_| rng.below(1_000)).collect();
    let drawn: usize = events.iter().map(|transition| draws.get(*transition).unwrap_or(&0)).sum();
    let given = drawn + rng.pick(&[0, 0, 0, 1]) - drawn.min(rng.pick(&[0, 0, 0, 1]));
    let pulse = |draw: usize| if draw % 3 == 0 { format!("W,{},3", draw / 3) } else { format!("J,{draw}") };
    let capacitor = if given == 0 { [1, 500, 500] } else { [(2 * given).min(MOST), 1_000, 0] };
    (capacitor, draws.into_iter().map(pulse).collect())
}

/// Damaged like any text, or with another figure, or another letter, or a line more or less.
fn damaged(rng: &mut Rng, text: &[u8]) -> Vec<u8> {
    match rng.below(5) {
        0 => damage(rng, text),
        1 | 2 => other_figure(rng, text),
        3 => other_letter(rng, text),
        _ => other_count(rng, text),
    }
}

/// Any figure in place of one of a line's, as often of the capacitor's as of another; often at the end of a range.
fn other_figure(rng: &mut Rng, text: &[u8]) -> Vec<u8> {
    let text = String::from_utf8_lossy(text);
    let commas: Vec<usize> = text.match_indices(',').map(|(at, _)| at + 1).collect();
    let places = if rng.chance(50) { &commas[..3] } else { &commas[..] };
    let start = rng.pick(places);
    let end = text[start..].find([',', '\n']).map_or(text.len(), |length| start + length);
    let figures = if rng.chance(60) { &["0", "60000", "60001", "1000000", "1000001"][..] } else { &FIGURES[..] };
    let figure = rng.pick(figures);
    [&text[..start], figure, &text[end..]].concat().into_bytes()
}

fn other_letter(rng: &mut Rng, text: &[u8]) -> Vec<u8> {
    let mut text = text.to_vec();
    let letters: Vec<usize> = (0..text.len()).filter(|at| text[*at].is_ascii_uppercase()).collect();
    text[rng.pick(&letters)] = rng.pick(b"KJWkjwLVXE0");
    text
}

/// No lines, fewer or more; among the further ones now and then one that is refused.
fn other_count(rng: &mut Rng, text: &[u8]) -> Vec<u8> {
    let lines: Vec<&[u8]> = text.split_inclusive(|byte| *byte == 10).collect();
    match rng.below(4) {
        0 => lines[..rng.below(lines.len())].concat(),
        1 => [text, rng.pick(&[&b"J,1000001\n"[..], b"K,1,1,0\n", b"J,0", b"\n", b"W,1\n"])].concat(),
        _ => [text, &b"J,0\n".repeat(rng.between(1, 40))].concat(),
    }
}

#[cfg(test)]
mod tests {
    use super::*;
    use crate::case::run;
    use crate::gen::round_with;
    use crate::sim::{Requests, SIMULATOR};

    /// What is met in energies: more than nothing is left, nothing, too little; something of nothing; the machine would round the
    /// difference; from a tie, to either side of it; and the exact difference rounds to another f64.
    fn met(text: &[u8], [usable, draw, left]: [f64; 3]) -> [bool; 8] {
        // What the machine's difference lost, which is exact for these (the greater first).
        let lost = usable - (left + draw);
        let half = (left.abs() - f64::from_bits(left.abs().to_bits() - (left != 0.0) as u64)).abs() / 2.0;
        let first = String::from_utf8_lossy(text);
        let figures: Vec<u128> = first.lines().next().unwrap_or_default().split(',').skip(1).map(|figure| figure.trim_end().parse().expect("a figure")).collect();
        let exact = figures[0] * (figures[1] * figures[1] - figures[2] * figures[2]);
        let drawn = draw as u128 * 2_000_000;
        let once = exact.abs_diff(drawn) as f64 / 2_000_000.0;
        [
            left > 0.0,
            left == 0.0,
            left < 0.0,
            left == 0.0 && usable > 0.0,
            lost != 0.0,
            lost == half && lost > 0.0,
            lost == -half && lost < 0.0,
            exact.abs_diff(drawn) < 1 << 53 && once != left.abs(),
        ]
    }

    /// How often, in energies that are given; and of the texts.
    #[test]
    fn generator_meets_ties_and_every_sign() {
        for requests in [Requests::ALL, Requests::BEFORE[0]] {
            let mut count = [0; 8];
            let (mut given, mut refused) = (0, 0);
            for case in (0..12_000).flat_map(|round| round_with(&mut Rng::for_round(24, round), requests)) {
                if case.operation == Operation::Energy {
                    let answer = run(&SIMULATOR, &case).answer;
                    if answer.accepted() {
                        given += 1;
                        let kinds = met(&case.texts[2], [answer.a, answer.b, answer.c].map(f64::from_bits));
                        kinds.iter().zip(&mut count).for_each(|(met, count)| *count += *met as usize);
                    }
                    refused += matches!(answer.number, 52 | 53) as usize;
                }
            }
            println!("{given} given, {refused} refused by 52 or 53, {count:?}");
            assert!(given > 6_000 && refused > 600, "{given} given and {refused} refused");
            assert!(count.iter().all(|count| *count > 100), "{count:?} of {given}");
        }
    }
}
