//! The fixes: each deviate is a fraction of whole numbers, and its float is put together of that, bit by bit.

use super::{kind, remake, run_refusal, Kind};
use crate::calls::*;

/// How many bits of a number are kept at most, as many as a float has digits.
const KEPT: u64 = 53;

/// The numerator over 2^twos.
#[derive(Clone, Copy)]
struct Fraction {
    numerator: i128,
    twos: u64,
}

/// The number without what is dropped, over 2^width, less one half.
fn deviate(width: u64, number: u64) -> Fraction {
    let dropped = number % (1 << width.saturating_sub(KEPT));
    Fraction { numerator: 2 * i128::from(number - dropped) - (1 << width), twos: width + 1 }
}

/// The float that is the fraction: its sign, its exponent with 1023 added, and the 52 digits behind the first.
fn bits_of(Fraction { numerator, twos }: Fraction) -> u64 {
    if numerator == 0 {
        return 0;
    }
    let size = numerator.unsigned_abs();
    let leading = size.ilog2();
    let (behind, unit) = ((size - (1 << leading)) << 52, 1 << leading);
    assert_eq!(behind % unit, 0, "{numerator} over 2^{twos} has too many digits");
    let exponent = 1023 + u64::from(leading) - twos;
    u64::from(numerator < 0) << 63 | exponent << 52 | (behind / unit) as u64
}

fn refusal(run: Run, fix: u64) -> u64 {
    match run_refusal(run) {
        0 if kind(run.generator) == Kind::Prime => INEXACT,
        0 if 2 * u128::from(fix) + 1 >= run.count.into() => POSITION_OUT_OF_RANGE,
        refusal => refusal,
    }
}

pub fn fix_at(run: Run, fix: u64) -> FixBits {
    let refusal = refusal(run, fix);
    if refusal != 0 {
        return FixBits { refusal, ..FixBits::default() };
    }
    let mut numbers = [0; 2];
    remake(run, 2 * fix, &mut numbers);
    let [east, north] = numbers.map(|number| bits_of(deviate(run.generator.width, number)));
    FixBits { refusal: 0, east, north }
}

#[cfg(test)]
mod tests {
    use super::*;
    use crate::random::Random;

    const MINUS_HALF: u64 = 0xbfe0_0000_0000_0000;

    fn bits(width: u64, number: u64) -> u64 {
        bits_of(deviate(width, number))
    }

    #[test]
    fn ends_and_middle_of_every_width() {
        for width in 1..=64 {
            assert_eq!(bits(width, 0), MINUS_HALF, "{width}");
            assert_eq!(bits(width, 1 << (width - 1)), 0, "{width}");
        }
        for width in 2..=64 {
            assert_eq!(bits(width, 3 << (width - 2)), 0x3fd0 << 48, "{width}");
        }
    }

    /// The largest number gives 1/2 less one unit of what is kept.
    #[test]
    fn largest_of_a_width() {
        let largest = [(1, 0), (2, 0x3fd0 << 48), (10, 0x3fdf_f000 << 32), (52, 0x3fdf_ffff_ffff_fffc)];
        for (width, wanted) in largest {
            assert_eq!(bits(width, u64::MAX >> (64 - width)), wanted, "{width}");
        }
        for width in 53..=64 {
            assert_eq!(bits(width, u64::MAX >> (64 - width)), 0x3fdf_ffff_ffff_fffe, "{width}");
        }
    }

    /// Below and above the middle by one unit of what is kept, 2^−53; dropped bits alone change nothing.
    #[test]
    fn last_bits_that_are_kept() {
        for width in 53..=64 {
            let (half, unit) = (1 << (width - 1), 1 << (width - 53));
            assert_eq!(bits(width, half + unit), 0x3ca0 << 48, "{width}");
            assert_eq!(bits(width, half - unit), 0xbca0 << 48, "{width}");
            assert_eq!(bits(width, half + unit - 1), 0, "{width}");
            assert_eq!(bits(width, unit - 1), MINUS_HALF, "{width}");
            assert_eq!(bits(width, unit), 0xbfdf_ffff_ffff_fffe, "{width}");
        }
    }

    /// The run shows 49, 742, 821, 434, 217, 606, 541 and 1002.
    #[test]
    fn worked_fixes() {
        let run = Run::from([10, 371, 995, 73, 100, 8]);
        for (fix, east, north) in [(0, -463.0, 230.0), (1, 309.0, -78.0), (2, -295.0, 94.0), (3, 29.0, 490.0)]
        {
            let [east, north] = [east, north].map(|above: f64| (above / 1024.0).to_bits());
            assert_eq!(fix_at(run, fix), FixBits { refusal: 0, east, north });
        }
        for (run, fix, refusal) in [
            (run, 4, POSITION_OUT_OF_RANGE),
            (Run { count: 7, ..run }, 3, POSITION_OUT_OF_RANGE),
            (run, 1 << 63, POSITION_OUT_OF_RANGE),
            (run, u64::MAX, POSITION_OUT_OF_RANGE),
            (Run::from([0, 16807, 0, 1, 0, 8]), 0, INEXACT),
            (Run::from([0, 16807, 0, 1, 0, 8]), 4, INEXACT),
            (Run::from([0, 16807, 0, 1, 0, 0]), 4, RUN_OUT_OF_RANGE),
            (Run::from([0, 16807, 0, 0, 0, 0]), 4, OPERAND_OUT_OF_RANGE),
            (Run::from([65, 16807, 0, 0, 0, 0]), 4, WIDTH_OUT_OF_RANGE),
        ] {
            assert_eq!(fix_at(run, fix), FixBits { refusal, east: 0, north: 0 }, "{fix} of {run:?}");
        }
    }

    /// The value that these bits have is the fraction once more, in whole numbers of 2^−117.
    #[test]
    fn bits_have_the_fractions_value() {
        let mut r = Random::new(13);
        for _ in 0..1_000_000 {
            let width = 1 + r.below(64);
            let fraction = deviate(width, r.bits(width));
            let bits = bits_of(fraction);
            let digits = i128::from(bits << 12 >> 12 | 1 << 52);
            let exponent = (bits << 1 >> 53) as i64 - 1023 - 52;
            let size = if bits == 0 { 0 } else { digits << (117 + exponent) };
            let value = if bits >> 63 == 1 { -size } else { size };
            assert_eq!(value, fraction.numerator << (117 - fraction.twos), "{bits:x}");
        }
    }
}
