//! The sequence of an odd multiplier a by formula, at any width.
//!
//! Write d for element 1 less element 0, and S(i) for 1 + a + .. + a^(i−1). Element i is
//! seed + d S(i), and with z = a − 1:
//!
//! - S(i) is the sum of C(i, j) z^(j−1) over j ≥ 1, by the binomial theorem. z is even, so the
//!   terms from j = 65 on are 0 modulo 2^64.
//! - If z is a multiple of 4, the i with S(i) = t is log(1 + z t) / log(1 + z), by the 2-adic
//!   logarithm, since a^i = 1 + z S(i).
//! - Otherwise the i of an even t is even, as S(2 j) is 1 + a times the S(j) of the multiplier a²,
//!   which is 1 modulo 8; and S(i + 1) = 1 + a S(i) settles an odd t.

use crate::calls::Generator;
use crate::trail::{low, step};

/// The inverses modulo 2^64 of 1, 3, 5 and so on.
const INVERSES: [u64; 32] = {
    let mut table = [0; 32];
    let mut at = 0;
    while at < 32 {
        table[at] = inverse(2 * at as u64 + 1);
        at += 1;
    }
    table
};

/// The inverse of an odd number modulo 2^64, bit by bit: `rest` is 1 less the product so far.
pub const fn inverse(odd: u64) -> u64 {
    let (mut result, mut rest, mut bit) = (0, 1u64, 0);
    while bit < 64 {
        if rest >> bit & 1 == 1 {
            result |= 1 << bit;
            rest = rest.wrapping_sub(odd << bit);
        }
        bit += 1;
    }
    result
}

/// The odd part of a number from 1 to 64, inverted, and the exponent of its power of two.
fn inverted(small: u64) -> (u64, u32) {
    let twos = small.trailing_zeros();
    (INVERSES[(small >> twos) as usize / 2], twos)
}

/// S(i) modulo 2^64.
fn series(a: u64, i: u64) -> u64 {
    let half = a / 2;
    let mut total = 0u64;
    // C(i, j) is odd × 2^twos, and z^(j−1) is power × 2^(j−1).
    let (mut odd, mut twos, mut power) = (1u64, 0, 1u64);
    for j in 1..=i.min(64) {
        let factor = i - (j - 1);
        let (divisor, divisor_twos) = inverted(j);
        twos = twos + factor.trailing_zeros() - divisor_twos;
        odd = odd.wrapping_mul(factor >> factor.trailing_zeros()).wrapping_mul(divisor);
        let term = odd.wrapping_mul(power).checked_shl(twos + (j - 1) as u32);
        total = total.wrapping_add(term.unwrap_or(0));
        power = power.wrapping_mul(half);
    }
    total
}

/// log(1 + z t) / z modulo 2^64, for z a multiple of 4: the sum of (−z)^j t^(j+1) / (j+1). The
/// terms from j = 32 on are 0.
fn logarithm(z: u64, t: u64) -> u64 {
    let ratio = (z / 4).wrapping_neg().wrapping_mul(t);
    let (mut total, mut power) = (0u64, t);
    for j in 0..32 {
        let (divisor, twos) = inverted(j + 1);
        total = total.wrapping_add(power.wrapping_mul(divisor) << (2 * j as u32 - twos));
        power = power.wrapping_mul(ratio);
    }
    total
}

/// The least i with S(i) = t modulo 2^bits.
fn series_index(a: u64, t: u64, bits: u64) -> Option<u64> {
    if a % 4 == 1 {
        let quotient = logarithm(a - 1, t).wrapping_mul(inverse(logarithm(a - 1, 1)));
        return Some(low(quotient.into(), bits));
    }
    let parity = t % 2;
    let even = if parity == 0 { t } else { (t - 1).wrapping_mul(inverse(a)) };
    let half = divided(even, a.wrapping_add(1), bits).and_then(|(quotient, left)| match left {
        0 => Some(0),
        _ => series_index(a.wrapping_mul(a), quotient, left),
    })?;
    Some(2 * half + parity)
}

/// The quotient q with divisor × q = number modulo 2^bits, and the number of bits in which it is
/// settled, which are the lowest ones.
fn divided(number: u64, divisor: u64, bits: u64) -> Option<(u64, u64)> {
    let twos = (divisor.trailing_zeros() as u64).min(bits);
    if low(number.into(), twos) != 0 {
        return None;
    }
    if twos == bits {
        return Some((0, 0));
    }
    let quotient = (number >> twos).wrapping_mul(inverse(divisor >> twos));
    Some((low(quotient.into(), bits - twos), bits - twos))
}

/// Element 1 less element 0, modulo 2^n.
fn first_difference(g: Generator) -> u64 {
    low(step(g, g.seed).wrapping_sub(g.seed).into(), g.width)
}

pub fn element(g: Generator, index: u64) -> u64 {
    let away = first_difference(g).wrapping_mul(series(g.multiplier, index));
    low(g.seed.wrapping_add(away).into(), g.width)
}

pub fn index(g: Generator, number: u64) -> Option<u64> {
    let away = low(number.wrapping_sub(g.seed).into(), g.width);
    match divided(away, first_difference(g), g.width)? {
        (_, 0) => Some(0),
        (t, bits) => series_index(g.multiplier, t, bits),
    }
}

/// The period is the least P with d S(P) = 0 modulo 2^n. S(2^e) has e zero bits at its end, or
/// (for a = 3 modulo 4 and e ≥ 1) those of a + 1 and e − 1 more.
pub fn exponent(g: Generator) -> u64 {
    let settled = (first_difference(g).trailing_zeros() as u64).min(g.width);
    let bits = g.width - settled;
    if g.multiplier % 4 == 1 || bits == 0 {
        return bits;
    }
    let twos = g.multiplier.wrapping_add(1).trailing_zeros() as u64;
    1 + bits.saturating_sub(twos)
}

#[cfg(test)]
mod tests {
    use super::*;
    use crate::trail::Trail;

    /// Every generator of odd multiplier at this width.
    fn all(width: u64) -> impl Iterator<Item = Generator> {
        let size = 1u64 << width;
        (0..size * size * size / 2).map(move |k| Generator {
            width,
            multiplier: k / size / size * 2 + 1,
            increment: k / size % size,
            seed: k % size,
        })
    }

    #[test]
    fn formulas_agree_with_stepping() {
        for g in (1..=6).flat_map(all) {
            let trail = Trail::of(g);
            assert_eq!(exponent(g), trail.exponent(), "exponent of {g:?}");
            for i in (0..(2 << g.width)).chain([u64::MAX, u64::MAX - 1, 1 << 63]) {
                assert_eq!(element(g, i), trail.element(i), "element {i} of {g:?}");
            }
            for number in 0..1 << g.width {
                assert_eq!(index(g, number), trail.index(number), "index of {number} in {g:?}");
            }
        }
    }
}
