//! f64 by their 64 bits, in whole numbers alone: the one nearest to a fraction, and the one nearest to the difference of two.
//! No float of the machine is worked with, so that its rounding and this one are two.

/// A significand has so many binary digits, the first of which is 1 and is not kept.
const DIGITS: i32 = 53;
/// Above the exponent that is kept.
const BIAS: i32 = 1_023;
const SIGN: u64 = 1 << 63;

/// The bits of the f64 nearest to `above / below`, ties to even, which is not below 0. Fractions here have neither too large
/// nor too small an exponent.
pub fn nearest(above: u128, below: u128) -> u64 {
    if above == 0 {
        return 0;
    }
    let exponent = exponent(above, below);
    let divisor = shifted(below, exponent.max(0));
    let mut rest = shifted(above, (-exponent).max(0));
    // Long division, digit by digit; the first is 1.
    let mut significand = 0;
    for _ in 0..DIGITS {
        let digit = rest >= divisor;
        significand = 2 * significand + u64::from(digit);
        rest = shifted(if digit { rest - divisor } else { rest }, 1);
    }
    let up = rest > divisor || rest == divisor && significand % 2 == 1;
    // A significand of all ones that is rounded up carries into the exponent.
    let kept = (((exponent + BIAS) as u64) << (DIGITS - 1)) + (significand - (1 << (DIGITS - 1)));
    kept + u64::from(up)
}

/// The greatest e for which 2^e is not above the fraction.
fn exponent(above: u128, below: u128) -> i32 {
    let length = |number: u128| 128 - number.leading_zeros() as i32;
    let guess = length(above) - length(below);
    let reached = if guess >= 0 { above >= shifted(below, guess) } else { shifted(above, -guess) >= below };
    if reached { guess } else { guess - 1 }
}

fn shifted(number: u128, digits: i32) -> u128 {
    assert!(digits <= number.leading_zeros() as i32, "the number is kept whole");
    number << digits
}

/// A value that is not below 0, as a significand times a power of two.
fn parts(bits: u64) -> (u128, i32) {
    if bits == 0 {
        return (0, 0);
    }
    let (kept, exponent) = (bits % (1 << (DIGITS - 1)), (bits >> (DIGITS - 1)) as i32);
    assert!((1..2 * BIAS).contains(&exponent), "a normal number, not below 0");
    (u128::from(kept + (1 << (DIGITS - 1))), exponent - BIAS - (DIGITS - 1))
}

/// The bits of the f64 nearest to the difference of two that are not below 0, ties to even. A difference of 0 has no sign.
pub fn difference(from: u64, less: u64) -> u64 {
    let ((from, from_power), (less, less_power)) = (parts(from), parts(less));
    let power = from_power.min(less_power).min(0);
    let (from, less) = (shifted(from, from_power - power), shifted(less, less_power - power));
    let size = nearest(from.abs_diff(less), shifted(1, -power));
    if from < less { size | SIGN } else { size }
}

#[cfg(test)]
mod tests {
    use super::*;
    use crate::rng::Rng;

    /// Written out from the format: sign, eleven digits of the exponent above 1,023, fifty-two digits.
    #[test]
    fn written_out() {
        for (above, below, bits) in [
            (0, 1, 0),
            (1, 1, 0x3FF0_0000_0000_0000),
            (2, 1, 0x4000_0000_0000_0000),
            (3, 2, 0x3FF8_0000_0000_0000),
            (1, 2, 0x3FE0_0000_0000_0000),
            (1, 3, 0x3FD5_5555_5555_5555),
            (2, 3, 0x3FE5_5555_5555_5555),
            (1, 5, 0x3FC9_9999_9999_999A),
            (1, 10, 0x3FB9_9999_9999_999A),
            (12, 10, 0x3FF3_3333_3333_3333),
            (1, 1_000_000, 0x3EB0_C6F7_A0B5_ED8D),
            (1_000_000, 1, 0x412E_8480_0000_0000),
        ] {
            assert_eq!(nearest(above, below), bits, "{above} / {below}");
        }
    }

    /// Past 53 digits: whole numbers at a tie and beside one, and one that carries.
    #[test]
    fn ties_go_to_the_even_digit() {
        let power = 1u128 << 53;
        let one = 0x4340_0000_0000_0000;
        for (more, bits) in [(0, one), (1, one), (2, one + 1), (3, one + 2), (4, one + 2), (5, one + 2), (6, one + 3), (7, one + 4)] {
            assert_eq!(nearest(power + more, 1), bits, "2^53 + {more}");
            assert_eq!(nearest((power + more) << 40, 1 << 40), bits);
        }
        for (times, more, up) in [(10, 9, 0), (10, 10, 0), (10, 11, 1), (10, 29, 1), (10, 30, 2), (10, 31, 2)] {
            assert_eq!(nearest(power * times + more, times), one + up, "2^53 + {more} / {times}");
        }
        assert_eq!(nearest(power - 1, 1), one - 1);
        assert_eq!(nearest(2 * power - 1, 2), one, "all ones, and a half");
        assert_eq!(nearest(4 * power - 3, 4), one - 1, "all ones, and a quarter");
    }

    /// Of many sizes.
    fn some(rng: &mut Rng, digits: usize) -> u128 {
        u128::from(rng.next() >> (64 - rng.between(1, digits)))
    }

    /// The machine's division as a second opinion: of whole numbers that it holds exactly it rounds once.
    #[test]
    fn fractions_as_the_machine_divides() {
        let mut rng = Rng::for_round(21, 0);
        for _ in 0..300_000 {
            let (above, below) = (some(&mut rng, 53), some(&mut rng, 53).max(1));
            assert_eq!(nearest(above, below), (above as f64 / below as f64).to_bits(), "{above} / {below}");
            assert_eq!(nearest(above, 2_000_000), (above as f64 / 2_000_000.0).to_bits(), "{above}");
        }
    }

    /// The machine's own conversion of whole numbers, of which those past 53 digits are rounded, many of them from a tie.
    #[test]
    fn whole_numbers_as_the_machine_converts() {
        let (mut rng, mut ties) = (Rng::for_round(22, 0), 0);
        for _ in 0..300_000 {
            let (number, zeros) = (some(&mut rng, 56), rng.below(10));
            assert_eq!(nearest(number << zeros, 1), ((number << zeros) as f64).to_bits(), "{number} << {zeros}");
            ties += (number >> 53 == 1 && number % 2 == 1) as usize;
        }
        assert!(ties > 1_000, "{ties} ties");
    }

    /// The machine's subtraction as a second opinion; with values that lie close, far apart, and by which ties come about.
    #[test]
    fn differences_as_the_machine_subtracts() {
        let (mut rng, mut signs) = (Rng::for_round(23, 0), [0; 3]);
        for _ in 0..300_000 {
            let below = [1, 2_000_000, 128][rng.below(3)];
            let from = some(&mut rng, 52) as f64 / below as f64;
            let less = if rng.chance(5) { from } else { some(&mut rng, 47) as f64 };
            assert_eq!(difference(from.to_bits(), less.to_bits()), (from - less).to_bits(), "{from} - {less}");
            signs[((from > less) as usize) + 2 * ((from == less) as usize)] += 1;
        }
        assert!(signs.iter().all(|count| *count > 5_000), "below, above and equal: {signs:?}");
    }

    #[test]
    fn differences_written_out() {
        let bits = |above: u128, below: u128| nearest(above, below);
        assert_eq!(difference(bits(12, 10), bits(1, 1)), 0x3FC9_9999_9999_9998, "the f64 of 1.2, less 1: not that of 0.2");
        assert_eq!(difference(bits(46_875, 2_000_000), bits(128_000_000_000_000, 1)), 0xC2DD_1A94_A1FF_FFFE, "a tie");
        assert_eq!(difference(bits(1, 3), bits(1, 3)), 0, "no minus zero");
        assert_eq!(difference(0, 0), 0, "no minus zero of zeros");
        assert_eq!(difference(0, bits(1, 1)), 0xBFF0_0000_0000_0000);
        assert_eq!(difference(bits(1, 2_000_000), bits(128_000_000_000_000, 1)), 0xC2DD_1A94_A200_0000, "the least of all beside the greatest");
    }
}
