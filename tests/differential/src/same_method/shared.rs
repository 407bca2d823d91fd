//! What two runs share: one search for the second's seed among the first's elements, and from there by places on the
//! circle of their period; neither run's first number is jumped to.

use super::{index_up_the_places, kind, prime, run_refusal, Kind};
use crate::calls::*;
use crate::prime::PERIOD;

fn shared_refusal(first: Run, second: Run) -> u64 {
    let refusal = run_refusal(first);
    if refusal != 0 {
        return refusal;
    }
    let refusal = run_refusal(second);
    if refusal != 0 {
        return refusal;
    }
    let (g, h) = (first.generator, second.generator);
    let alike = g.width == h.width && g.multiplier == h.multiplier && g.increment == h.increment;
    if alike && g.multiplier & 1 == 1 {
        0
    } else {
        INCOMPATIBLE
    }
}

/// For an odd multiplier the least index of a number that the width has, and the period less 1.
fn index_and_last(g: Generator, number: u64) -> Option<(u64, u64)> {
    match kind(g) {
        Kind::Prime => prime::index(g.seed, number).map(|index| (index, PERIOD - 1)),
        Kind::Linear => index_up_the_places(g, number).map(|(index, period)| (index, period.wrapping_sub(1))),
    }
}

/// Where an index stands on the circle whose last place this is.
fn place(index: u64, last: u64) -> u64 {
    if index <= last {
        index
    } else {
        index % (last + 1)
    }
}

/// How many places the one is before the other, round the circle.
fn ahead(from: u64, to: u64, last: u64) -> u64 {
    if from <= to {
        to - from
    } else {
        last - (from - to) + 1
    }
}

/// How many places of the circle a run of so many positions covers.
fn covered(count: u64, last: u64) -> u64 {
    if count <= last {
        count
    } else {
        last + 1
    }
}

/// Of so many places from 0 on and so many from d on: those that the second has from d on, and those that it has past
/// the end, which are the first ones again.
fn common_places(first: u64, second: u64, d: u64, last: u64) -> u64 {
    let (one, other) = (covered(first, last), covered(second, last));
    let room = last - d;
    let past = if other <= room { 0 } else { other - room - 1 };
    if one <= d {
        one.min(past)
    } else {
        past + other.min(one - d)
    }
}

fn shared_of(first: Run, second: Run) -> u64 {
    let Some((index, last)) = index_and_last(first.generator, second.generator.seed) else { return 0 };
    let behind = ahead(place(second.first, last), place(first.first, last), last);
    common_places(first.count, second.count, ahead(behind, index, last), last)
}

#[inline(never)]
pub fn shared(first: Run, second: Run) -> Value {
    match shared_refusal(first, second) {
        0 => Value { refusal: 0, value: shared_of(first, second) },
        refusal => Value { refusal, value: 0 },
    }
}

#[cfg(test)]
mod tests {
    use super::*;
    use crate::model;
    use crate::pairs::{self, Pair};
    use crate::random::Random;

    #[test]
    fn shared_agrees_with_the_model() {
        let mut r = Random::new(25);
        for _ in 0..200_000 {
            let Pair { first, second } = pairs::pair(&mut r);
            assert_eq!(shared(first, second), model::shared::shared(first, second), "{first:?}, {second:?}");
        }
    }
}
