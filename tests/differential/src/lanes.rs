//! Lanes of runs: random ones of every kind, chosen numbers at every width, and lanes about the limits of their number
//! and the ends of runs.

use crate::calls::*;
use crate::random::Random;
use crate::samples;

/// The arguments of one call.
#[derive(Clone, Copy, Debug)]
pub struct Call {
    pub run: Run,
    pub lanes: u64,
    pub lane: u64,
}

// Random ones.

/// What is added to a number so that 8, 16 or 32 bits of it, or all but the highest, stay as they are.
const MORE: [u64; 4] = [1 << 8, 1 << 16, 1 << 32, 1 << 63];

/// A run, mostly accepted: every second one of about as many positions as it may have lanes, and of these many near
/// the last index.
fn run(r: &mut Random) -> Run {
    let make = if r.one_in(16) { samples::prime_generator } else { samples::generator };
    let generator = make(r);
    let run = samples::run(r, generator);
    let few = 1 + r.below(20);
    match r.below(8) {
        0 | 1 => Run { first: run.first.min(u64::MAX - few), count: few, ..run },
        2 | 3 => Run { first: u64::MAX - few, count: few, ..run },
        _ => run,
    }
}

/// A number of lanes for a run with this count: mostly one that it may have, often about the largest; else none, too
/// many, or a number of which some bits would do.
fn lanes(r: &mut Random, count: u64) -> u64 {
    let most = count.clamp(1, 16);
    let within = 1 + r.below(most);
    let about_the_most = most + r.below(3) - 1;
    let far = [0, 16, 17, count, within + r.pick(&MORE), u64::MAX, r.any()];
    let choices =
        [1, within, within, within, within, within, most, about_the_most, about_the_most, r.pick(&far)];
    r.pick(&choices)
}

/// One of so many lanes, often the first or the last; else the one behind it, or one of which some bits would do.
fn lane(r: &mut Random, lanes: u64) -> u64 {
    let (within, last) = (r.below(lanes.max(1)), lanes.saturating_sub(1));
    let far = [lanes, lanes, lanes.saturating_add(1), within.wrapping_add(r.pick(&MORE)), u64::MAX, r.any()];
    let choices = [0, within, within, within, within, last, last, r.pick(&far)];
    r.pick(&choices)
}

/// The same call with one bit of it changed.
fn changed(mut call: Call, r: &mut Random) -> Call {
    let (mut numbers, bit) = (<[u64; 6]>::from(call.run), 1 << r.below(64));
    match r.below(8) {
        6 => call.lanes ^= bit,
        7 => call.lane ^= bit,
        at => numbers[at as usize] ^= bit,
    }
    Call { run: Run::from(numbers), ..call }
}

/// Mostly accepted.
pub fn call(r: &mut Random) -> Call {
    let run = match r.below(16) {
        0 => Run::from(std::array::from_fn(|_| r.any())),
        _ => run(r),
    };
    let lanes = lanes(r, run.count);
    let call = Call { run, lanes, lane: lane(r, lanes) };
    if r.one_in(8) {
        changed(call, r)
    } else {
        call
    }
}

// Chosen ones.

/// From the first index on and to the last one: as few positions as 16 lanes need, one more, and as many as there may
/// be.
const PLACES: [(u64, u64); 4] = [(0, 16), (0, u64::MAX), (u64::MAX - 17, 17), (1, u64::MAX - 1)];

/// At every width each of the operands at an end, beside it or in the middle; the first and the last of every number of
/// lanes.
pub fn chosen_operands() -> Vec<Call> {
    let mut calls = Vec::new();
    for width in 1..=64 {
        let operands = [0, 1, 1 << (width - 1), u64::MAX >> (64 - width)];
        for at in 0..64 {
            let [multiplier, increment, seed] = [at / 16, at / 4 % 4, at % 4].map(|at| operands[at]);
            let generator = Generator { width, multiplier, increment, seed };
            for (first, count) in PLACES {
                let run = Run { generator, first, count };
                let ends = (1..=16).flat_map(|lanes| [(lanes, 0), (lanes, lanes - 1)]);
                calls.extend(ends.map(|(lanes, lane)| Call { run, lanes, lane }));
            }
        }
    }
    calls
}

/// Runs of so many: few, about 16, and about powers of two.
const COUNTS: [u64; 15] = [
    1,
    2,
    3,
    15,
    16,
    17,
    33,
    u32::MAX as u64,
    1 << 32,
    (1 << 63) - 1,
    1 << 63,
    (1 << 63) + 1,
    u64::MAX - 2,
    u64::MAX - 1,
    u64::MAX,
];

/// None, few, about 16 and about the count, and numbers of which some bits would do.
fn numbers_of_lanes(count: u64) -> Vec<u64> {
    let mut numbers = vec![0, 1, 2, 3, 15, 16, 17, 32, u64::MAX];
    numbers.extend([count.wrapping_sub(1), count, count.wrapping_add(1)]);
    numbers.extend(MORE.map(|more| more + 1));
    numbers.sort();
    numbers.dedup();
    numbers
}

/// The first, the last, the one behind it, and numbers of which some bits would do.
fn lanes_among(lanes: u64) -> Vec<u64> {
    let mut among = vec![0, 1, lanes.wrapping_sub(1), lanes, lanes.wrapping_add(1), u64::MAX];
    among.extend(MORE);
    among.sort();
    among.dedup();
    among
}

/// Of generators accepted and refused, with every count from index 0 on, from the largest first index that there may
/// be, and from one more; and with none.
pub fn chosen_limits(r: &mut Random) -> Vec<Call> {
    let mut calls = Vec::new();
    for generator in samples::chosen_generators(r) {
        for count in COUNTS.into_iter().chain([0]) {
            let last = u64::MAX - count;
            for first in [0, last, last.saturating_add(1)] {
                let run = Run { generator, first, count };
                for lanes in numbers_of_lanes(count) {
                    calls.extend(lanes_among(lanes).into_iter().map(|lane| Call { run, lanes, lane }));
                }
            }
        }
    }
    calls
}

#[cfg(test)]
mod tests {
    use super::*;
    use crate::model;

    fn low_byte_among(number: u64, below: u64) -> bool {
        number > 255 && (1..below).contains(&(number % 256))
    }

    fn equals_the_lane_before(Call { run, lanes, lane }: Call) -> bool {
        lane > 0 && model::lane::lane(run, lanes, lane) == model::lane::lane(run, lanes, lane - 1)
    }

    /// How many lanes have one position more than the others, or 0.
    fn longer(call: Call) -> u64 {
        call.run.count % call.lanes.max(1)
    }

    fn is_even(Call { run, .. }: Call) -> bool {
        run.generator.multiplier.is_multiple_of(2)
    }

    /// A name, which calls are meant, and the refusals that they have; others come of a run that is refused before.
    type Sort = (&'static str, fn(Call) -> bool, &'static [u64]);

    const LANES: u64 = LANES_OUT_OF_RANGE;

    /// What the random calls are meant for.
    const WANTED: [Sort; 25] = [
        ("no lanes", |call| call.lanes == 0, &[LANES]),
        ("1 lane", |call| call.lanes == 1, &[0]),
        ("16 lanes", |call| call.lanes == 16, &[0, LANES]),
        ("17 lanes", |call| call.lanes == 17 && call.run.count > 17, &[LANES]),
        ("2^64 - 1 lanes", |call| call.lanes == u64::MAX, &[LANES]),
        ("as many as positions", |call| call.lanes == call.run.count, &[0, LANES]),
        ("one more", |call| call.lanes <= 16 && call.lanes == call.run.count + 1, &[LANES]),
        ("low bits of lanes", |call| low_byte_among(call.lanes, 17), &[LANES]),
        ("lane 0", |call| call.lane == 0, &[0, LANES]),
        ("last lane", |call| call.lane.checked_add(1) == Some(call.lanes), &[0, LANES]),
        ("the one behind it", |call| call.lane == call.lanes && call.lanes <= 16, &[LANES]),
        ("lane 2^64 - 1", |call| call.lane == u64::MAX, &[LANES]),
        ("low bits of a lane", |call| call.lanes <= 16 && low_byte_among(call.lane, call.lanes), &[LANES]),
        ("lanes of one length", |call| longer(call) == 0, &[0]),
        ("one of the longer lanes", |call| call.lane < longer(call), &[0]),
        ("one of the shorter lanes", |call| longer(call) != 0 && call.lane >= longer(call), &[0]),
        ("equal lanes", equals_the_lane_before, &[0]),
        ("width 0", |call| call.run.generator.width == 0, &[OPERAND_OUT_OF_RANGE, RUN_OUT_OF_RANGE, LANES]),
        ("width 65", |call| call.run.generator.width == 65, &[WIDTH_OUT_OF_RANGE]),
        (
            "no count",
            |call| call.run.count == 0,
            &[WIDTH_OUT_OF_RANGE, OPERAND_OUT_OF_RANGE, RUN_OUT_OF_RANGE],
        ),
        ("fewer positions than 16", |call| call.run.count < 16, &[0, LANES]),
        ("about 2^64 positions", |call| call.run.count > u64::MAX - 100, &[0, LANES]),
        ("first 0", |call| call.run.first == 0, &[0]),
        (
            "seed from the last index",
            |call| call.run.first.checked_add(call.lane) == Some(u64::MAX - 1),
            &[0],
        ),
        ("even multiplier", is_even, &[0]),
    ];

    /// Each of them comes up, with each of its refusals, and every width is accepted.
    #[test]
    fn random_calls_are_of_every_kind() {
        let mut r = Random::new(19);
        let mut met = WANTED.map(|(_, _, refusals)| vec![0; refusals.len()]);
        let mut widths = [0; 65];
        for _ in 0..200_000 {
            let call = call(&mut r);
            let refusal = model::lane::lane(call.run, call.lanes, call.lane).refusal;
            if refusal == 0 {
                widths[call.run.generator.width as usize] += 1;
            }
            for ((_, wanted, refusals), met) in WANTED.iter().zip(&mut met) {
                if let Some(at) = refusals.iter().position(|&of| of == refusal && wanted(call)) {
                    met[at] += 1;
                }
            }
        }
        for ((name, _, _), met) in WANTED.iter().zip(met) {
            assert!(met.iter().all(|&times| times >= 100), "{name}: {met:?}");
        }
        assert!(widths[1..].iter().all(|&times| times >= 1000), "{widths:?}");
    }

    #[test]
    fn chosen_operands_are_accepted() {
        for call in chosen_operands() {
            assert_eq!(model::lane::lane(call.run, call.lanes, call.lane).refusal, 0, "{call:?}");
        }
    }
}
