//! Fixes of runs: random ones of every kind, chosen numbers at every width, and fixes about the ends of runs.

use crate::calls::*;
use crate::random::Random;
use crate::trail::low;
use crate::{formula, model, samples};

/// The arguments of one call.
pub type Call = (Run, u64);

// Numbers of a width, and runs that show them.

/// One unit of what is kept of a number.
fn unit(width: u64) -> u64 {
    1 << width.saturating_sub(53)
}

/// About the ends and the middle; above width 53 each with bits that are dropped: one half of a unit, all, or none.
fn numbers(width: u64) -> Vec<u64> {
    let (half, unit) = (1u64 << (width - 1), unit(width));
    let mut numbers = Vec::new();
    for place in [0, half, half.wrapping_mul(2)] {
        for apart in [0, 1, unit / 2, unit - 1, unit, unit + unit / 2, 2 * unit] {
            numbers.extend([place.wrapping_sub(apart), place.wrapping_add(apart)]);
        }
    }
    numbers.iter_mut().for_each(|number| *number = low((*number).into(), width));
    numbers.sort();
    numbers.dedup();
    numbers
}

/// Single bits, and what is so far from the middle or below the end: deviates of every exponent.
fn powers(width: u64) -> Vec<u64> {
    let (half, top) = (1u64 << (width - 1), u64::MAX >> (64 - width));
    let near = |power: u64| [power, half.wrapping_add(power), half.wrapping_sub(power), top - power];
    (0..width).flat_map(|bit| near(1 << bit)).map(|number| low(number.into(), width)).collect()
}

/// Where a fix is: its run's first index and count, and its number.
#[derive(Clone, Copy)]
struct Place {
    first: u64,
    count: u64,
    fix: u64,
}

/// The fix that is made of these two numbers. The increment leads from the first to the second; the seed is as
/// many steps back as the place is from the start, for which the multiplier has to be odd unless it is the start.
fn showing(width: u64, multiplier: u64, [east, north]: [u64; 2], place: Place) -> Call {
    let Place { first, count, fix } = place;
    let low = |x: u64| low(x.into(), width);
    let increment = low(north.wrapping_sub(multiplier.wrapping_mul(east)));
    let index = first + 2 * fix;
    let seed = if index == 0 {
        east
    } else {
        let inverse = formula::inverse(multiplier);
        let undone = low(increment.wrapping_mul(inverse).wrapping_neg());
        let back = Generator { width, multiplier: low(inverse), increment: undone, seed: east };
        model::element_of(back, index)
    };
    (Run { generator: Generator { width, multiplier, increment, seed }, first, count }, fix)
}

/// The start of a sequence, where any multiplier will do.
const START: Place = Place { first: 0, count: 2, fix: 0 };

/// The first fix of a run or a later one, few indices from the start, many, or as many as there may be.
const PLACES: [Place; 6] = [
    Place { first: 1, count: 3, fix: 0 },
    Place { first: 3, count: 6, fix: 2 },
    Place { first: 1 << 40, count: 1 << 60, fix: 1 << 41 },
    Place { first: 0, count: u64::MAX, fix: (1 << 63) - 2 },
    Place { first: 1, count: u64::MAX - 1, fix: (1 << 63) - 2 },
    Place { first: u64::MAX - 2, count: 2, fix: 0 },
];

// Random ones.

/// Numbers that are often chosen ones.
fn shown(r: &mut Random, width: u64) -> [u64; 2] {
    let (numbers, powers) = (numbers(width), powers(width));
    std::array::from_fn(|_| {
        let choices = [r.pick(&numbers), r.pick(&powers), r.bits(width)];
        r.pick(&choices)
    })
}

/// An accepted place, often at the end of its run.
fn place(r: &mut Random) -> Place {
    let firsts = [0, r.below(4), r.any() / 4];
    let fixes = [0, r.below(4), r.any() / 4];
    let (first, fix) = (r.pick(&firsts), r.pick(&fixes));
    let counts = [2 * fix + 2, 2 * fix + 3, u64::MAX - first];
    Place { first, count: r.pick(&counts), fix }
}

fn showing_chosen(r: &mut Random) -> Call {
    let width = 1 + r.below(64);
    let place = if r.one_in(8) { START } else { place(r) };
    let multiplier = r.bits(width) | u64::from(place.first != 0 || place.fix != 0);
    showing(width, multiplier, shown(r, width), place)
}

/// A fix of a run with this count: mostly on it, often about its end; else behind it, some of these such that
/// their positions would be on the run if they wrapped.
fn fix(r: &mut Random, count: u64) -> u64 {
    let end = count / 2;
    let about_the_end = end.wrapping_add(r.below(4)).wrapping_sub(2);
    let on_run = r.below(end.max(1));
    let wrapped = (1 << 63) + r.below(end.max(1));
    let far = [wrapped, wrapped, (1 << 63) - 1, 1 << 63, u64::MAX, r.any()];
    let choices = [0, r.below(4), on_run, on_run, on_run, about_the_end, about_the_end, r.pick(&far)];
    r.pick(&choices)
}

/// Of a run that is mostly accepted and has more than one position; one in eight is of width 0.
fn of_random_run(r: &mut Random) -> Call {
    let make = if r.one_in(8) { samples::prime_generator } else { samples::generator };
    let generator = make(r);
    let mut run = samples::run(r, generator);
    if run.count == 1 && run.first < u64::MAX - 100 {
        run.count += r.below(4);
    }
    (run, fix(r, run.count))
}

/// The same call with one bit of it changed.
fn changed((run, mut fix): Call, r: &mut Random) -> Call {
    let (mut numbers, bit) = (<[u64; 6]>::from(run), 1 << r.below(64));
    match numbers.get_mut(r.below(7) as usize) {
        Some(number) => *number ^= bit,
        None => fix ^= bit,
    }
    (Run::from(numbers), fix)
}

/// Mostly accepted.
pub fn call(r: &mut Random) -> Call {
    match r.below(16) {
        0 => (Run::from([r.any(), r.any(), r.any(), r.any(), r.any(), r.any()]), r.any()),
        1 => (Run::from([r.word(), r.word(), r.word(), r.word(), r.word(), r.word()]), r.word()),
        2 | 3 => changed(showing_chosen(r), r),
        4..=9 => showing_chosen(r),
        _ => of_random_run(r),
    }
}

// Chosen ones.

/// At every width each pair of the numbers about its ends and its middle, and each power once as either: at the
/// start of a sequence with any multiplier, and further on.
pub fn chosen_numbers(r: &mut Random) -> Vec<Call> {
    let mut calls = Vec::new();
    for width in 1..=64 {
        let (numbers, powers) = (numbers(width), powers(width));
        let pairs = numbers.iter().flat_map(|&east| numbers.iter().map(move |&north| [east, north]));
        let next = powers.iter().cycle().skip(1);
        for pair in pairs.chain(powers.iter().zip(next).map(|(&east, &north)| [east, north])) {
            calls.push(showing(width, r.bits(width), pair, START));
            calls.extend(PLACES.map(|place| showing(width, r.bits(width) | 1, pair, place)));
        }
    }
    calls
}

/// Runs of so many: few, and about powers of two.
const COUNTS: [u64; 20] = [
    1,
    2,
    3,
    4,
    5,
    8,
    9,
    u32::MAX as u64,
    1 << 32,
    (1 << 32) + 1,
    (1 << 62) - 1,
    1 << 62,
    (1 << 62) + 1,
    (1 << 63) - 1,
    1 << 63,
    (1 << 63) + 1,
    u64::MAX - 3,
    u64::MAX - 2,
    u64::MAX - 1,
    u64::MAX,
];

/// Fixes at the start, about the end of a run with this count, about 2^62, 2^63 and 2^64, and behind 2^63 as far as
/// about the end.
fn ends(count: u64) -> Vec<u64> {
    let mut fixes = vec![0, 1];
    for near in 0..5 {
        for place in [count / 2, 1 << 62, 1 << 63, 0, (1 << 63) + count / 2] {
            fixes.push(place.wrapping_add(near).wrapping_sub(2));
        }
    }
    fixes
}

/// With every count from index 0 on, from the largest first index that there may be, and from one more; and with
/// none.
pub fn chosen_ends(r: &mut Random) -> Vec<Call> {
    let mut calls = Vec::new();
    for generator in samples::chosen_generators(r) {
        for count in COUNTS {
            for first in [0, u64::MAX - count, (u64::MAX - count).saturating_add(1)] {
                calls.extend(ends(count).into_iter().map(|fix| (Run { generator, first, count }, fix)));
            }
        }
        for first in [0, 1, u64::MAX] {
            calls.extend(ends(0).into_iter().map(|fix| (Run { generator, first, count: 0 }, fix)));
        }
    }
    calls
}

#[cfg(test)]
mod tests {
    use super::*;

    fn second(fix: u64) -> u128 {
        2 * u128::from(fix) + 1
    }

    fn count((run, _): Call) -> u128 {
        run.count.into()
    }

    /// The two numbers, if the call is accepted.
    fn numbers_of((run, fix): Call) -> Option<[u64; 2]> {
        let mut numbers = [0; 2];
        let accepted = model::fix::fix_at(run, fix).refusal == 0;
        accepted.then(|| model::remake(run, 2 * fix, &mut numbers))?;
        Some(numbers)
    }

    #[test]
    fn runs_show_the_chosen_numbers() {
        let mut r = Random::new(15);
        for width in 1..=64 {
            for pair in numbers(width).windows(2) {
                let pair = [pair[1], pair[0]];
                let even = showing(width, r.bits(width) & !1, pair, START);
                let odd = PLACES.map(|place| showing(width, r.bits(width) | 1, pair, place));
                for call in odd.into_iter().chain([even]) {
                    assert_eq!(numbers_of(call), Some(pair), "{call:?}");
                }
            }
        }
    }

    fn wraps_to_the_run(call: Call) -> bool {
        second(call.1) >= 1 << 64 && second(call.1) - (1 << 64) < count(call)
    }

    /// Whether the one of these numbers is of this sort: by width and number.
    fn shows(call: Call, at: usize, sort: fn(u64, u64) -> bool) -> bool {
        numbers_of(call).is_some_and(|numbers| sort(call.0.generator.width, numbers[at]))
    }

    fn only_dropped(width: u64, number: u64) -> bool {
        number != 0 && number < unit(width)
    }

    fn middle(width: u64, number: u64) -> bool {
        number == 1 << (width - 1)
    }

    fn below_middle(width: u64, number: u64) -> bool {
        number == (1 << (width - 1)) - 1
    }

    fn largest(width: u64, number: u64) -> bool {
        number == u64::MAX >> (64 - width)
    }

    /// A name, which calls are meant, and the refusals that they have; others come of a run that is refused before.
    type Sort = (&'static str, fn(Call) -> bool, &'static [u64]);

    /// What the random calls are meant for.
    const WANTED: [Sort; 25] = [
        ("last fix, even count", |call| second(call.1) + 1 == count(call), &[0, INEXACT]),
        ("last fix, odd count", |call| second(call.1) + 2 == count(call), &[0, INEXACT]),
        ("2 f + 1 is the count", |call| second(call.1) == count(call), &[POSITION_OUT_OF_RANGE, INEXACT]),
        ("one more", |call| second(call.1) == count(call) + 1, &[POSITION_OUT_OF_RANGE, INEXACT]),
        ("f is 2^63 - 1", |call| call.1 == (1 << 63) - 1, &[POSITION_OUT_OF_RANGE, INEXACT]),
        ("f is 2^63", |call| call.1 == 1 << 63, &[POSITION_OUT_OF_RANGE, INEXACT]),
        ("f is 2^64 - 1", |call| call.1 == u64::MAX, &[POSITION_OUT_OF_RANGE, INEXACT]),
        ("wraps to the run", wraps_to_the_run, &[POSITION_OUT_OF_RANGE, INEXACT]),
        ("width 0", |call| call.0.generator.width == 0, &[OPERAND_OUT_OF_RANGE, RUN_OUT_OF_RANGE, INEXACT]),
        ("no count", |call| call.0.count == 0, &[WIDTH_OUT_OF_RANGE, OPERAND_OUT_OF_RANGE, RUN_OUT_OF_RANGE]),
        ("count 1", |call| call.0.count == 1, &[POSITION_OUT_OF_RANGE, INEXACT]),
        ("even multiplier", |call| call.0.generator.multiplier.is_multiple_of(2), &[0]),
        ("first 0", |call| call.0.first == 0, &[0]),
        ("first far", |call| call.0.first > 1 << 60, &[0]),
        ("far fix", |call| call.1 > 1 << 60, &[0]),
        ("east 0", |call| shows(call, 0, |_, number| number == 0), &[0]),
        ("north 0", |call| shows(call, 1, |_, number| number == 0), &[0]),
        ("east only dropped", |call| shows(call, 0, only_dropped), &[0]),
        ("north only dropped", |call| shows(call, 1, only_dropped), &[0]),
        ("east middle", |call| shows(call, 0, middle), &[0]),
        ("north middle", |call| shows(call, 1, middle), &[0]),
        ("east below the middle", |call| shows(call, 0, below_middle), &[0]),
        ("north below the middle", |call| shows(call, 1, below_middle), &[0]),
        ("east largest", |call| shows(call, 0, largest), &[0]),
        ("north largest", |call| shows(call, 1, largest), &[0]),
    ];

    /// Each of them comes up, with each of its refusals, and every width is accepted.
    #[test]
    fn random_calls_are_of_every_kind() {
        let mut r = Random::new(16);
        let mut met = WANTED.map(|(_, _, refusals)| vec![0; refusals.len()]);
        let mut widths = [0; 65];
        for _ in 0..200_000 {
            let call = call(&mut r);
            let refusal = model::fix::fix_at(call.0, call.1).refusal;
            if refusal == 0 {
                widths[call.0.generator.width as usize] += 1;
            }
            for ((_, wanted, refusals), met) in WANTED.iter().zip(&mut met) {
                if let Some(at) = refusals.iter().position(|&of| of == refusal && wanted(call)) {
                    met[at] += 1;
                }
            }
        }
        for ((name, _, _), met) in WANTED.iter().zip(met) {
            assert!(met.iter().all(|&times| times >= 100), "{name}: {met:?}");
        }
        assert!(widths[1..].iter().all(|&times| times >= 1000), "{widths:?}");
    }
}
