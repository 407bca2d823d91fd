//! Pairs of runs: random ones of every kind; chosen ones on one circle, apart or with every sort of overlap, and on
//! different circles; and chosen ones that are refused.

use crate::calls::*;
use crate::random::Random;
use crate::{model, prime, samples};

/// The arguments of one call.
#[derive(Clone, Copy, Debug)]
pub struct Pair {
    pub first: Run,
    pub second: Run,
}

// Runs of one circle, which has a place for each number of the period.

const MOST: i128 = u64::MAX as i128;

fn period(g: Generator) -> i128 {
    period_of(model::orbit(g)) as i128
}

/// A run that begins so many places behind where the other begins: its seed is as many steps before that place as its
/// first index says.
fn behind(other: Run, apart: i128, first: u64, count: u64) -> Run {
    let index = i128::from(other.first) + apart - i128::from(first);
    let seed = model::element_of(other.generator, index.rem_euclid(period(other.generator)) as u64);
    Run { generator: Generator { seed, ..other.generator }, first, count }
}

// Random ones.

/// An accepted one with an odd multiplier, of width 0 now and then.
fn generator(r: &mut Random) -> Generator {
    if r.one_in(16) {
        return prime::generator(1 + r.below(prime::PERIOD));
    }
    let width = 1 + r.below(64);
    loop {
        let g = samples::accepted_generator(r, width);
        if g.multiplier % 2 == 1 {
            return g;
        }
    }
}

/// Any number that a generator of this width may yield.
fn seed(r: &mut Random, width: u64) -> u64 {
    match width {
        0 => 1 + r.below(prime::PERIOD),
        _ => r.bits(width),
    }
}

fn first_index(r: &mut Random) -> u64 {
    let choices = [0, samples::index(r), samples::index(r), samples::index(r)];
    r.pick(&choices).min(u64::MAX - 1)
}

/// Up to two more or less.
fn about(r: &mut Random, number: i128) -> i128 {
    number + i128::from(r.below(5)) - 2
}

/// The nearest count that a run from this index on may have.
fn fitting(count: i128, first: u64) -> u64 {
    count.clamp(1, MOST - i128::from(first)) as u64
}

fn first_run(r: &mut Random, generator: Generator) -> Run {
    let (first, period) = (first_index(r), period(generator));
    let counts = [1, about(r, 50), about(r, period / 2), about(r, period), r.any().into(), MOST];
    Run { generator, first, count: fitting(r.pick(&counts), first) }
}

/// On the same circle. It begins about where the other one begins or ends, or anywhere, and ends likewise, or is as
/// long as the whole circle, or as may be.
fn second_run(r: &mut Random, other: Run) -> Run {
    let (first, period, count) = (first_index(r), period(other.generator), i128::from(other.count));
    let places = [about(r, 0), about(r, count), about(r, period / 2), r.word().into()];
    let apart = r.pick(&places).rem_euclid(period);
    let ends = [about(r, period), about(r, period), about(r, count), about(r, apart + count)];
    let counts = [1, r.any().into(), r.pick(&ends) - apart, r.pick(&ends) - apart, about(r, period), MOST];
    behind(other, apart, first, fitting(r.pick(&counts), first))
}

/// Accepted. One in eight has the same seed twice, and one in eight any two seeds, often of different circles.
fn alike(r: &mut Random) -> Pair {
    let generator = generator(r);
    let first = first_run(r, generator);
    let second = second_run(r, first);
    let seed = match r.below(8) {
        0 => generator.seed,
        1 => seed(r, generator.width),
        _ => second.generator.seed,
    };
    Pair { first, second: Run { generator: Generator { seed, ..generator }, ..second } }
}

/// The second run has another width, multiplier or increment, mostly one that is accepted.
fn unlike(r: &mut Random, Pair { first, second }: Pair) -> Pair {
    let mut generator = second.generator;
    let bit = 1 << r.below(generator.width.clamp(1, 64));
    match r.below(4) {
        0 => generator.width += 1,
        1 => generator.width = generator.width.saturating_sub(1),
        2 => generator.multiplier ^= bit,
        _ => generator.increment ^= bit,
    }
    Pair { first, second: Run { generator, ..second } }
}

/// Both with the same even multiplier.
fn even(Pair { first, second }: Pair) -> Pair {
    let even = |run: Run| Run {
        generator: Generator { multiplier: run.generator.multiplier & !1, ..run.generator },
        ..run
    };
    Pair { first: even(first), second: even(second) }
}

/// The same run with a count, a width or an operand that is refused, or any numbers.
fn spoiled(r: &mut Random, run: Run) -> Run {
    let mut numbers = <[u64; 6]>::from(run);
    let width = run.generator.width;
    match r.below(5) {
        0 => numbers[5] = 0,
        1 => numbers[5] = (u64::MAX - run.first).saturating_add(1),
        2 => numbers[0] = r.pick(&[65, 128, width + (1 << 8), width + (1 << 32), u64::MAX]),
        3 => numbers[1 + r.below(3) as usize] |= 1 << (width + r.below(65 - width)).min(63),
        _ => numbers = std::array::from_fn(|_| r.any()),
    }
    Run::from(numbers)
}

/// One of the twelve numbers with one bit changed.
fn changed(r: &mut Random, Pair { first, second }: Pair) -> Pair {
    let mut runs = [first, second].map(<[u64; 6]>::from);
    runs[r.below(2) as usize][r.below(6) as usize] ^= 1 << r.below(64);
    let [first, second] = runs.map(Run::from);
    Pair { first, second }
}

/// Mostly accepted.
pub fn pair(r: &mut Random) -> Pair {
    let pair = alike(r);
    let Pair { first, second } = pair;
    match r.below(16) {
        0 => unlike(r, pair),
        1 => even(pair),
        2 => changed(r, pair),
        3 => Pair { first: spoiled(r, first), second },
        4 => Pair { first, second: spoiled(r, second) },
        5 => Pair { first: spoiled(r, first), second: spoiled(r, second) },
        _ => pair,
    }
}

// Chosen ones.

/// Widths 64 and 63, with periods of 1, 2, 2^24, 2^62, 2^63 and 2^64; narrower ones; width 0.
const CIRCLES: [[u64; 4]; 14] = [
    [64, 1, 1, 0],
    [64, 6_364_136_223_846_793_005, 1_442_695_040_888_963_407, 7],
    [64, 6_364_136_223_846_793_005, 2, 1],
    [64, 3, 1, 5],
    [64, 1, 1 << 40, 9],
    [64, u64::MAX, 0, 1],
    [64, 1, 0, 9],
    [63, 5, 3, 1],
    [63, 1, 2, 5],
    [32, 1_664_525, 1_013_904_223, 11],
    [10, 371, 995, 73],
    [8, 5, 3, 1],
    [0, prime::MULTIPLIER, 0, 1],
    [0, prime::MULTIPLIER, 0, 1_043_618_065],
];

fn generator_of([width, multiplier, increment, seed]: [u64; 4]) -> Generator {
    Generator { width, multiplier, increment, seed }
}

fn sorted(mut numbers: Vec<i128>) -> Vec<i128> {
    numbers.sort();
    numbers.dedup();
    numbers
}

/// Counts that a run can have: few, half the period, about the whole, as many as there may be, and of some more those
/// that it can.
fn counts(period: i128, more: &[i128]) -> Vec<i128> {
    let counts = [1, 2, period / 2, period - 1, period, period + 1, MOST - 1, MOST];
    sorted([&counts, more].concat().into_iter().filter(|count| (1..=MOST).contains(count)).collect())
}

/// At the start, about the end of the first period, and as far as may be.
fn first_indices(period: i128, count: i128) -> Vec<u64> {
    let firsts = [0, period - 1, period, MOST - count];
    let on_it = |first: &i128| (0..=MOST - count).contains(first);
    sorted(firsts.to_vec()).into_iter().filter(on_it).map(|first| first as u64).collect()
}

/// Two runs on one circle: apart, end to end, with one place in common at either end or at both, one in the other,
/// equal, and one or both as long as the circle or longer; each from several first indices.
fn arcs_of(generator: Generator) -> Vec<Pair> {
    let (period, mut pairs) = (period(generator), Vec::new());
    for l in counts(period, &[]) {
        for m in counts(period, &[l - 2, period - l, period - l + 1, period - l + 2]) {
            let aparts =
                [0, 1, period / 2, period - 1, l - 1, l, l + 1, period - m - 1, period - m, period - m + 1];
            for apart in sorted(aparts.map(|apart| apart.rem_euclid(period)).to_vec()) {
                for first in first_indices(period, l) {
                    let one = Run { generator, first, count: l as u64 };
                    let other = |first| behind(one, apart, first, m as u64);
                    let seconds = first_indices(period, m).into_iter().map(other);
                    pairs.extend(seconds.map(|second| Pair { first: one, second }));
                }
            }
        }
    }
    pairs
}

/// The seeds differ in one bit: mostly on different circles, unless one circle has all numbers.
fn across(generator: Generator) -> Vec<Pair> {
    let (period, mut pairs) = (period(generator), Vec::new());
    for bit in 0..generator.width {
        let seed = generator.seed ^ 1 << bit;
        for l in counts(period, &[]) {
            for m in counts(period, &[]) {
                let first = Run { generator, first: (MOST - l) as u64, count: l as u64 };
                let second = Run {
                    generator: Generator { seed, ..generator },
                    first: (MOST - m) as u64,
                    count: m as u64,
                };
                pairs.push(Pair { first, second });
            }
        }
    }
    pairs
}

/// Of the chosen circles, and of one at every width that has all its numbers.
pub fn chosen_arcs() -> Vec<Pair> {
    let full = (1..=64).map(|width| {
        let top = u64::MAX >> (64 - width);
        Generator { width, multiplier: 5 & top, increment: 3 & top, seed: 1 }
    });
    let generators = CIRCLES.into_iter().map(generator_of).chain(full);
    generators.flat_map(|generator| [arcs_of(generator), across(generator)].concat()).collect()
}

/// The generator, the same with one number changed to another that is accepted, and with one that is refused.
fn variants(g: Generator) -> Vec<Generator> {
    let top = 1 << (g.width.max(1) - 1);
    let mut variants = vec![g, Generator { seed: g.seed ^ 2, ..g }, prime::generator(5)];
    for bit in [1, 2, top] {
        variants.extend([
            Generator { multiplier: g.multiplier ^ bit, ..g },
            Generator { increment: g.increment ^ bit, ..g },
        ]);
    }
    let widths = [g.width + 1, g.width.saturating_sub(1), 65, g.width + (1 << 8), g.width + (1 << 32)];
    variants.extend(widths.map(|width| Generator { width, ..g }));
    for bit in [g.width.min(63), 63] {
        variants.extend([
            Generator { multiplier: g.multiplier | 1 << bit, ..g },
            Generator { increment: g.increment | 1 << bit, ..g },
            Generator { seed: g.seed | 1 << bit, ..g },
        ]);
    }
    variants
}

/// First indices and counts: accepted, none, or too far.
const PLACES: [(u64, u64); 6] = [(0, 1), (5, 20), (0, u64::MAX), (0, 0), (u64::MAX, 1), (2, u64::MAX - 1)];

/// Each of the variants with each of the places, in every pair.
pub fn chosen_refusals() -> Vec<Pair> {
    let mut pairs = Vec::new();
    for generator in CIRCLES.map(generator_of) {
        let runs: Vec<Run> = variants(generator)
            .into_iter()
            .flat_map(|generator| PLACES.map(|(first, count)| Run { generator, first, count }))
            .collect();
        pairs.extend(runs.iter().flat_map(|&first| runs.iter().map(move |&second| Pair { first, second })));
    }
    pairs
}

#[cfg(test)]
mod tests {
    use super::*;

    fn reply(Pair { first, second }: Pair) -> Value {
        model::shared::shared(first, second)
    }

    /// Of an accepted pair the place where the second run begins, if the first begins at place 0 of the same circle,
    /// how many places each covers, and how many there are.
    fn places(Pair { first, second }: Pair) -> (Option<i128>, i128, i128, i128) {
        let [begin, sought] = [first, second].map(|run| model::element_of(run.generator, run.first));
        let IndexReply { found, index, .. } =
            model::index(Generator { seed: begin, ..first.generator }, sought);
        let period = period(first.generator);
        let [l, m] = [first, second].map(|run| period.min(run.count.into()));
        ((found == 1).then_some(index.into()), l, m, period)
    }

    /// Whether the two overlap so: the second begins at place s, they cover l and m of p places.
    type Way = fn(s: i128, l: i128, m: i128, p: i128) -> bool;

    const WAYS: [(&str, Way); 15] = [
        ("the first is the whole circle", |_, l, m, p| l == p && m < p),
        ("the second is", |_, l, m, p| l < p && m == p),
        ("both are", |_, l, m, p| l == p && m == p),
        ("apart", |s, l, m, p| s > l && s + m < p),
        ("the second follows", |s, l, m, p| s == l && s + m < p),
        ("the second goes before", |s, l, m, p| s > l && s + m == p),
        ("both", |s, l, m, p| s == l && s + m == p),
        ("one place at the first's end", |s, l, m, p| s == l - 1 && s + m < p),
        ("one place at its start", |s, l, m, p| s > l && s + m == p + 1),
        ("one at either", |s, l, m, p| s == l - 1 && s > 0 && s + m == p + 1),
        ("several at both", |s, l, m, p| s < l - 1 && s + m > p + 1 && m < p),
        ("the second lies in the first", |s, l, m, p| s > 0 && s + m < l && l < p),
        ("the first in the second", |s, l, m, p| s + m > p + l && m < p),
        ("equal", |s, l, m, p| s == 0 && l == m && l < p),
        ("with one start", |s, l, m, p| s == 0 && l != m && l.max(m) < p),
    ];

    /// How often accepted pairs are in each of these ways on one circle, of 8 places at least, and how often on two.
    fn met(pairs: impl Iterator<Item = Pair>) -> ([u64; WAYS.len()], u64) {
        let (mut met, mut across) = ([0; WAYS.len()], 0);
        for pair in pairs.filter(|&pair| reply(pair).refusal == 0) {
            let (start, l, m, period) = places(pair);
            match start {
                None => across += 1,
                Some(_) if period < 8 => (),
                Some(s) => WAYS
                    .iter()
                    .zip(&mut met)
                    .for_each(|((_, way), met)| *met += u64::from(way(s, l, m, period))),
            }
        }
        (met, across)
    }

    #[test]
    fn random_pairs_overlap_in_every_way() {
        let mut r = Random::new(23);
        let (met, across) = met((0..100_000).map(|_| pair(&mut r)));
        for ((name, _), met) in WAYS.iter().zip(met) {
            assert!(met >= 50, "{name}: {met}");
        }
        assert!(across >= 1000, "{across}");
    }

    /// Each refusal of either run comes up beside each of the other's, and every width is accepted.
    #[test]
    fn random_pairs_are_accepted_and_refused() {
        let mut r = Random::new(24);
        let (mut refusals, mut incompatible, mut widths) = ([[0; 6]; 6], 0, [0; 65]);
        for _ in 0..200_000 {
            let pair = pair(&mut r);
            let [one, other] = [pair.first, pair.second].map(|run| model::variety(run).refusal as usize);
            refusals[one][other] += 1;
            match reply(pair).refusal {
                0 => widths[pair.first.generator.width as usize] += 1,
                refusal => incompatible += u64::from(refusal == INCOMPATIBLE),
            }
        }
        for one in [0, 3, 4, 5] {
            for other in [0, 3, 4, 5] {
                assert!(refusals[one][other] >= 500, "{one}, {other}: {refusals:?}");
            }
        }
        assert!(incompatible >= 10_000, "{incompatible}");
        assert!(widths.iter().all(|&times| times >= 1000), "{widths:?}");
    }

    /// No run covers a circle of 2^64 places.
    #[test]
    fn chosen_arcs_overlap_in_every_way() {
        for generator in CIRCLES.map(generator_of).into_iter().filter(|&g| g.width != 0 && period(g) >= 8) {
            let pairs = arcs_of(generator);
            assert!(pairs.iter().all(|&pair| reply(pair).refusal == 0), "{generator:?}");
            let (met, _) = met(pairs.into_iter());
            let whole = if period(generator) > MOST { 3 } else { 0 };
            for ((name, _), met) in WAYS.iter().zip(met).skip(whole) {
                assert!(met > 0, "{name} in {generator:?}");
            }
        }
    }

    #[test]
    fn chosen_circles_are_often_two() {
        let (_, across) = met(CIRCLES.map(generator_of).into_iter().flat_map(across));
        assert!(across >= 1000, "{across}");
    }
}
