//! Random arguments for the calls: mostly accepted ones of every kind, some that are refused, and
//! lines and archives of both sorts.

use std::collections::HashSet;

use crate::calls::*;
use crate::random::Random;
use crate::{model, prime};

/// Width 0, which has operands of its own, and widths that are too large.
const OTHER_WIDTHS: [u64; 6] = [0, 65, 66, 128, 1 << 32, u64::MAX];

/// The lowest `width` bits set.
fn top(width: u64) -> u64 {
    u64::MAX >> (64 - width)
}

// Generators and runs.

fn multiplier(r: &mut Random, width: u64) -> u64 {
    let power = 1 << r.below(width);
    let odd = r.bits(width) | 1;
    let choices = [odd, odd, odd, odd & !1, 0, 1, top(width), power + 1, power - 1, odd.wrapping_mul(power)];
    r.pick(&choices) & top(width)
}

/// The increment with which element 1 less element 0 is `difference`.
fn increment_for(difference: u64, multiplier: u64, seed: u64) -> u64 {
    difference.wrapping_add(seed).wrapping_sub(multiplier.wrapping_mul(seed))
}

/// A generator with the longest period of its width.
pub fn full_period_generator(r: &mut Random, width: u64) -> Generator {
    let multiplier = r.bits(width) & !3 | 1;
    Generator { width, multiplier, increment: r.bits(width) | 1, seed: r.bits(width) }
}

/// An accepted generator. The difference of its first elements often ends in many zero bits,
/// which shortens the period.
pub fn accepted_generator(r: &mut Random, width: u64) -> Generator {
    let multiplier = multiplier(r, width);
    let shifts = [0, r.below(width), r.below(width)];
    let seed = (r.bits(width) << r.pick(&shifts)) & top(width);
    let shortened = increment_for(r.bits(width) << r.below(width), multiplier, seed);
    let choices = [r.bits(width) | 1, r.bits(width) & !1, 0, shortened];
    Generator { width, multiplier, increment: r.pick(&choices) & top(width), seed }
}

/// The same with a width or operand that is refused, or by chance not.
fn spoiled_generator(r: &mut Random, g: Generator) -> Generator {
    let above = top(g.width).saturating_add(1 + r.pick(&[0, 0, 1, u64::MAX - 1]));
    match r.below(6) {
        0 => Generator { width: r.pick(&OTHER_WIDTHS), ..g },
        1 => Generator { width: r.below(g.width), ..g },
        2 => Generator { multiplier: above, ..g },
        3 => Generator { increment: above, ..g },
        4 => Generator { seed: above, ..g },
        _ => Generator { width: r.any(), multiplier: r.any(), increment: r.any(), seed: r.any() },
    }
}

pub fn generator(r: &mut Random) -> Generator {
    let width = 1 + r.below(64);
    let g = accepted_generator(r, width);
    if r.one_in(16) {
        spoiled_generator(r, g)
    } else {
        g
    }
}

fn accepted_prime_generator(r: &mut Random) -> Generator {
    let any = 1 + r.below(prime::PERIOD);
    prime::generator(r.pick(&[any, any, any, any, 1, 2, prime::MULTIPLIER, prime::PERIOD]))
}

/// The same with an operand that is refused, or by chance not.
fn spoiled_prime_generator(r: &mut Random, g: Generator) -> Generator {
    let multipliers =
        [0, 1, prime::MULTIPLIER - 1, prime::MULTIPLIER + 1, prime::MULTIPLIER + (1 << 32), r.any()];
    let increments = [1, prime::MODULUS, 1 << 32, u64::MAX, r.any()];
    let seeds = [0, prime::MODULUS, prime::MODULUS + 1, g.seed + prime::MODULUS, g.seed + (1 << 32), r.any()];
    match r.below(4) {
        0 => Generator { width: r.pick(&OTHER_WIDTHS), ..g },
        1 => Generator { multiplier: r.pick(&multipliers), ..g },
        2 => Generator { increment: r.pick(&increments), ..g },
        _ => Generator { seed: r.pick(&seeds), ..g },
    }
}

/// Of width 0.
pub fn prime_generator(r: &mut Random) -> Generator {
    let g = accepted_prime_generator(r);
    if r.one_in(16) {
        spoiled_prime_generator(r, g)
    } else {
        g
    }
}

/// Accepted generators of every width, and at some widths refused ones. Those of width 0 too, of either sort.
pub fn chosen_generators(r: &mut Random) -> Vec<Generator> {
    let mut generators: Vec<Generator> = (1..=64).map(|width| accepted_generator(r, width)).collect();
    for width in [1, 10, 53, 63] {
        let (g, above) = (accepted_generator(r, width), 1 << width);
        generators.extend([
            Generator { multiplier: above, ..g },
            Generator { increment: above, ..g },
            Generator { seed: above, ..g },
        ]);
        generators.extend([65, 128, 256 + width, u64::MAX].map(|width| Generator { width, ..g }));
    }
    for seed in [1, prime::MULTIPLIER, prime::PERIOD, 0, prime::MODULUS] {
        let g = prime::generator(seed);
        let (multiplier, increment) = (prime::MULTIPLIER + 1, prime::MODULUS);
        generators.extend([
            g,
            Generator { multiplier, ..g },
            Generator { increment, ..g },
            Generator { width: 65, ..g },
        ]);
    }
    generators
}

pub fn index(r: &mut Random) -> u64 {
    let choices = [r.word(), r.any(), r.any(), r.below(100), u64::MAX - r.below(100)];
    r.pick(&choices)
}

/// A number on the generator's orbit, near it, anywhere, or too wide.
pub fn number(r: &mut Random, g: Generator) -> u64 {
    let i = index(r);
    let shown = model::element(g, i).value;
    let near = match g.width {
        0 => r.pick(&[0, prime::PERIOD, prime::MODULUS, prime::MODULUS + 1, shown + prime::MODULUS]),
        width => shown ^ 1 << r.below(width.min(64)),
    };
    let choices = [shown, shown, shown, near, shown ^ 1 << r.below(64), r.any()];
    r.pick(&choices)
}

/// A number of places, mostly one that the width has, and a number: the low bits of an element, often of
/// one of the preperiod, near them, anywhere, or too wide.
pub fn places_and_number(r: &mut Random, g: Generator) -> (u64, u64) {
    let within = 1 + r.below(g.width.clamp(1, 64));
    let refused = [0, g.width.wrapping_add(1), r.any()];
    let choices = [within, within, within, within, within, 1, g.width, g.width, g.width, r.pick(&refused)];
    let places = r.pick(&choices);

    let bits = places.clamp(1, 64);
    let indices = [index(r), r.below(model::orbit(g).preperiod + 2)];
    let shown = model::element(g, r.pick(&indices)).value;
    let low = shown & top(bits);
    let near = low ^ 1 << r.below(bits);
    let above = [shown, r.any(), top(bits).saturating_add(1 + r.below(2))];
    let choices = [low, low, low, near, r.bits(bits), r.pick(&above)];
    (places, r.pick(&choices))
}

/// Two numbers: mostly on the generator's orbit, a few steps from each other, half the period or any
/// number of steps; else each for itself.
pub fn two_numbers(r: &mut Random, g: Generator) -> (u64, u64) {
    if r.one_in(4) {
        return (number(r, g), number(r, g));
    }
    let (i, near) = (index(r), r.below(5).wrapping_sub(2));
    let half = (period_of(model::orbit(g)) / 2) as u64;
    let apart = [near, half.wrapping_add(near), half, r.any(), r.word()];
    let j = i.wrapping_add(r.pick(&apart));
    (model::element(g, i).value, model::element(g, j).value)
}

fn accepted_run(r: &mut Random, generator: Generator) -> Run {
    let firsts = [0, r.below(100), r.any(), r.word(), u64::MAX - 1 - r.below(100)];
    let first = r.pick(&firsts).min(u64::MAX - 1);
    let longest = u64::MAX - first;
    let counts = [1, 1 + r.below(100), 1 + r.any() / 2, longest];
    Run { generator, first, count: r.pick(&counts).min(longest) }
}

/// A run of the generator.
pub fn run(r: &mut Random, generator: Generator) -> Run {
    let run = accepted_run(r, generator);
    match r.below(32) {
        0 => Run { count: 0, ..run },
        1 => Run { count: (u64::MAX - run.first).saturating_add(1), ..run },
        2 => Run { first: r.any(), count: r.any(), ..run },
        _ => run,
    }
}

/// A position at the run's start or end, behind it, or anywhere.
pub fn position(r: &mut Random, run: Run) -> u64 {
    let at_the_end = run.count.saturating_sub(r.below(20)).saturating_add(r.below(3));
    let choices = [0, r.below(100), r.below(run.count.max(1)), at_the_end, at_the_end, r.any()];
    r.pick(&choices)
}

/// What some position of an accepted run shows, often one of the first.
fn shown_number(r: &mut Random, run: Run) -> u64 {
    let position = r.below(run.count);
    let near = position.min(r.below(4));
    model::element_of(run.generator, run.first + r.pick(&[position, near]))
}

// Lines.

/// Any byte, mostly one that might belong to a line.
fn a_byte(r: &mut Random) -> u8 {
    if r.one_in(4) {
        r.word() as u8
    } else {
        r.pick(b"0123456789,,\n\r -+")
    }
}

const UNREADABLE: [&str; 9] = ["", "00", "+1", "-1", " 1", "1 ", "0x1", "1.0", "18446744073709551616"];
const UNFIT: [&str; 4] = ["0", "1", "65", "18446744073709551615"];

/// The line with one of its fields changed, moved, added or removed.
fn with_bad_field(r: &mut Random, line: &[u8]) -> Vec<u8> {
    let text = String::from_utf8_lossy(line);
    let mut fields: Vec<String> = text.trim_end().split(',').map(String::from).collect();
    let at = r.below(fields.len() as u64) as usize;
    let other = r.below(fields.len() as u64) as usize;
    match r.below(8) {
        0 => fields[at].insert(0, '0'),
        1 => fields[at] = (u64::MAX as u128 + 1 + r.any() as u128).to_string(),
        2 => fields[at] += "0000000000000000000000",
        3 => fields[at] = r.pick(&UNREADABLE).into(),
        4 => fields[at] = r.pick(&UNFIT).into(),
        5 => fields.swap(at, other),
        6 => fields.insert(at, "1".into()),
        _ => drop(fields.remove(at)),
    }
    (fields.join(",") + "\n").into_bytes()
}

/// Bytes with one thing changed.
pub fn damaged(r: &mut Random, mut bytes: Vec<u8>) -> Vec<u8> {
    let at = r.below(bytes.len() as u64 + 1) as usize;
    let end = bytes.len().saturating_sub(1);
    match r.below(8) {
        0 if at < bytes.len() => bytes[at] = a_byte(r),
        1 if at < bytes.len() => drop(bytes.remove(at)),
        2 => bytes.insert(at, a_byte(r)),
        3 => bytes.truncate(at),
        4 => bytes.truncate(end),
        5 => bytes.insert(end, b'\r'),
        6 => bytes.push(b'\n'),
        _ => bytes.extend_from_within(at..),
    }
    bytes
}

fn damaged_line(r: &mut Random, line: Vec<u8>) -> Vec<u8> {
    if r.one_in(2) {
        with_bad_field(r, &line)
    } else {
        damaged(r, line)
    }
}

/// The bytes of a run's line, often damaged.
pub fn line(r: &mut Random, run: Run) -> Vec<u8> {
    let line = line_of(&run);
    if r.one_in(2) {
        damaged_line(r, line)
    } else {
        line
    }
}

// Archives.

/// An archive's bytes, and numbers to look for: some are shown by one of its lines.
pub struct Archive {
    pub bytes: Vec<u8>,
    pub numbers: Vec<u64>,
}

/// Makes the runs of an archive.
pub type MakeRun = fn(&mut Random) -> Run;

/// Of widths 1 to 64.
pub fn linear_run(r: &mut Random) -> Run {
    let widths = [1 + r.below(64), 1 + r.below(8)];
    let width = r.pick(&widths);
    let g = accepted_generator(r, width);
    accepted_run(r, g)
}

/// Every second one of width 0.
pub fn mixed_run(r: &mut Random) -> Run {
    if r.one_in(2) {
        return linear_run(r);
    }
    let g = accepted_prime_generator(r);
    accepted_run(r, g)
}

fn numbers_for(r: &mut Random, runs: &[Run], count: usize) -> Vec<u64> {
    let mut one = || match runs {
        [] => r.any(),
        _ if r.one_in(4) => r.any(),
        _ => {
            let run = r.pick(runs);
            shown_number(r, run)
        }
    };
    (0..count).map(|_| one()).collect()
}

/// So many runs, no two of them equal.
fn different_runs(r: &mut Random, make_run: MakeRun, count: u64) -> Vec<Run> {
    let (mut runs, mut seen) = (Vec::new(), HashSet::new());
    while (runs.len() as u64) < count {
        let run = make_run(r);
        if seen.insert(run) {
            runs.push(run);
        }
    }
    runs
}

/// Puts one of the lines in once more, at a later place.
fn repeat_line(r: &mut Random, lines: &mut Vec<Vec<u8>>) {
    let line = r.below(lines.len() as u64) as usize;
    let later = line + 1 + r.below((lines.len() - line) as u64) as usize;
    lines.insert(later, lines[line].clone());
}

/// The lines of the runs, one time in eight with one of them twice, and one time in four with a damaged one.
fn lines_of(r: &mut Random, runs: &[Run]) -> Vec<u8> {
    let mut lines: Vec<Vec<u8>> = runs.iter().map(line_of).collect();
    if !lines.is_empty() && r.one_in(8) {
        repeat_line(r, &mut lines);
    }
    if !lines.is_empty() && r.one_in(4) {
        let at = r.below(lines.len() as u64) as usize;
        lines[at] = damaged_line(r, lines[at].clone());
    }
    lines.concat()
}

/// The same archive with one of its lines once more, at a later place.
pub fn with_twin(r: &mut Random, archive: &[u8]) -> Vec<u8> {
    let mut lines: Vec<Vec<u8>> =
        archive.split_inclusive(|&byte| byte == b'\n').map(<[u8]>::to_vec).collect();
    repeat_line(r, &mut lines);
    lines.concat()
}

/// Of up to 40 different runs.
pub fn archive(r: &mut Random, make_run: MakeRun, numbers: usize) -> Archive {
    let most = r.below(41);
    let count = r.below(most + 1);
    let runs = different_runs(r, make_run, count);
    let numbers = numbers_for(r, &runs, numbers);
    Archive { bytes: lines_of(r, &runs), numbers }
}

/// The same run with another count, from an earlier index on if it would go too far.
fn with_count(run: Run, count: u64) -> Run {
    Run { first: run.first.min(u64::MAX - count), count, ..run }
}

/// A run of at most 100 numbers.
pub fn small_run(r: &mut Random) -> Run {
    let run = mixed_run(r);
    with_count(run, run.count.min(100))
}

/// Gives the runs counts whose sum is 2^64 − 2 to 2^64 + 1, or as many as one run may have: 1, half of what is
/// left, or any, and the last of them the rest.
fn sum_to_about_2_64(r: &mut Random, runs: &mut [Run]) {
    let mut left = (1 << 64) - 2 + u128::from(r.below(4));
    for (at, run) in runs.iter_mut().enumerate().rev() {
        let most = (left - at as u128).min(u64::MAX.into()) as u64;
        let choices = [1, 1 + most / 2, 1 + r.below(most), 1 + r.any() % most];
        let count = if at == 0 { most } else { r.pick(&choices) };
        *run = with_count(*run, count);
        left -= u128::from(count);
    }
}

/// Of up to eight runs: different ones with counts as they come, or with others that sum to about 2^64.
pub fn archive_to_sum(r: &mut Random, make_run: MakeRun) -> Vec<u8> {
    let make_run = r.pick(&[make_run, small_run]);
    let count = r.below(9);
    let mut runs = different_runs(r, make_run, count);
    if r.one_in(2) {
        sum_to_about_2_64(r, &mut runs);
    }
    lines_of(r, &runs)
}

/// An accepted run whose line has this length, from 13 to 85 bytes.
fn run_of_length(length: usize) -> Run {
    let mut numbers = [64, 1, 1, 1, 1, 1];
    let mut digits = length - 13;
    for number in &mut numbers[1..5] {
        let more = digits.min(18);
        *number = 10u64.pow(more as u32);
        digits -= more;
    }
    Run::from(numbers)
}

/// An archive of exactly this length, all of whose lines are accepted and different.
pub fn archive_of_length(r: &mut Random, make_run: MakeRun, length: usize, numbers: usize) -> Archive {
    let mut bytes = Vec::with_capacity(length);
    let (mut runs, mut seen) = (Vec::new(), HashSet::new());
    while bytes.len() < length {
        let left = length - bytes.len();
        let run = match left {
            0..=85 => run_of_length(left),
            86..=191 => run_of_length((left / 2 - 1).min(85)),
            _ => make_run(r),
        };
        if seen.insert(run) {
            bytes.extend(line_of(&run));
            runs.push(run);
        } else {
            assert!(left > 191, "the last lines are of different lengths");
        }
    }
    Archive { bytes, numbers: numbers_for(r, &runs, numbers) }
}
