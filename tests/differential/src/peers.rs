//! What other libraries of congruential generators do for `element` and `index`, at width 64, to
//! measure ours against: the published methods, written anew.
//!
//! - `advance` is the jump of F. B. Brown, "Random number generation with arbitrary strides" (1994),
//!   which pcg-cpp's function of that name follows: it goes up the bits of the number of steps,
//!   doubles the map of 1, 2, 4, .. steps at each, and adds it to the jump where the bit is set.
//! - `distance` is M. E. O'Neill's search in pcg-cpp's function of that name: it goes up the bits of
//!   the state, and takes 1, 2, 4, .. steps where the state differs from the number sought in a bit.
//!   Every such stride changes its bit in a generator of full period, so this needs no other test.
//!
//! Both take plain numbers, as there, and refuse nothing. Compilers differ in where they branch on the
//! bits, so both are here once more, as g++ builds them.

/// Multiplier and increment of twice as many steps.
fn doubled(multiplier: u64, increment: u64) -> (u64, u64) {
    (multiplier.wrapping_mul(multiplier), multiplier.wrapping_add(1).wrapping_mul(increment))
}

/// Element `delta`.
#[inline(never)]
pub fn advance(mut multiplier: u64, mut increment: u64, seed: u64, mut delta: u64) -> u64 {
    let (mut factor, mut summand) = (1u64, 0u64);
    while delta > 0 {
        if delta & 1 != 0 {
            factor = factor.wrapping_mul(multiplier);
            summand = summand.wrapping_mul(multiplier).wrapping_add(increment);
        }
        (multiplier, increment) = doubled(multiplier, increment);
        delta /= 2;
    }
    factor.wrapping_mul(seed).wrapping_add(summand)
}

/// The index of a number in a generator of full period: multiplier 1 modulo 4, increment odd. For
/// another it may not end.
#[inline(never)]
pub fn distance(mut multiplier: u64, mut increment: u64, mut state: u64, number: u64) -> u64 {
    let (mut bit, mut index) = (1u64, 0);
    while state != number {
        if state & bit != number & bit {
            state = state.wrapping_mul(multiplier).wrapping_add(increment);
            index |= bit;
        }
        (multiplier, increment) = doubled(multiplier, increment);
        bit <<= 1;
    }
    index
}

/// The same, built by g++ (`peers.cc`).
pub mod gpp {
    extern "C" {
        fn peer_advance(multiplier: u64, increment: u64, seed: u64, delta: u64) -> u64;
        fn peer_distance(multiplier: u64, increment: u64, state: u64, number: u64) -> u64;
    }

    pub fn advance(multiplier: u64, increment: u64, seed: u64, delta: u64) -> u64 {
        // Safety: numbers go in, a number comes out.
        unsafe { peer_advance(multiplier, increment, seed, delta) }
    }

    pub fn distance(multiplier: u64, increment: u64, state: u64, number: u64) -> u64 {
        // Safety: as above.
        unsafe { peer_distance(multiplier, increment, state, number) }
    }
}

#[cfg(test)]
mod tests {
    use super::*;
    use crate::calls::IndexReply;
    use crate::random::Random;
    use crate::{model, samples};

    #[test]
    fn advance_agrees_with_the_model() {
        let mut r = Random::new(1);
        for _ in 0..10_000 {
            let g = samples::accepted_generator(&mut r, 64);
            for index in [0, 1, u64::MAX, samples::index(&mut r)] {
                for advance in [advance, gpp::advance] {
                    let advanced = advance(g.multiplier, g.increment, g.seed, index);
                    assert_eq!(advanced, model::element(g, index).value, "element {index} of {g:?}");
                }
            }
        }
    }

    #[test]
    fn distance_agrees_with_the_model() {
        let mut r = Random::new(2);
        for _ in 0..10_000 {
            let g = samples::full_period_generator(&mut r, 64);
            for number in [g.seed, 0, u64::MAX, r.word()] {
                for distance in [distance, gpp::distance] {
                    let index = distance(g.multiplier, g.increment, g.seed, number);
                    let found = IndexReply { refusal: 0, found: 1, index };
                    assert_eq!(found, model::index(g, number), "{number} in {g:?}");
                }
            }
        }
    }
}
