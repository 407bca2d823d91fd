//! Every call of the header once more, independently: sequences by stepping where that is short and by
//! formula elsewhere, at width 0 by powers and baby steps, lines by splitting the bytes, equal lines by a set
//! of the earlier ones; the player in `player`, the fixes in `fix`, the lanes in `lane`, what two runs share in
//! `shared`.

use std::collections::HashSet;

use crate::calls::*;
use crate::trail::{low, step, Trail};
use crate::{formula, prime};

pub mod fix;
pub mod lane;
pub mod player;
pub mod shared;

/// Up to this width odd multipliers are stepped through; even ones always are.
const STEPPED_WIDTH: u64 = 8;

fn is_odd(number: u64) -> bool {
    number % 2 == 1
}

#[derive(PartialEq)]
enum Kind {
    Linear,
    Prime,
}

fn kind(g: Generator) -> Kind {
    if g.width == 0 {
        Kind::Prime
    } else {
        Kind::Linear
    }
}

/// How the sequence of an accepted generator is found.
enum Method {
    Prime,
    Stepping,
    Formula,
}

fn method(g: Generator) -> Method {
    if kind(g) == Kind::Prime {
        Method::Prime
    } else if g.width <= STEPPED_WIDTH || !is_odd(g.multiplier) {
        Method::Stepping
    } else {
        Method::Formula
    }
}

/// The elements, if they are stepped through.
fn trail(g: Generator) -> Option<Trail> {
    matches!(method(g), Method::Stepping).then(|| Trail::of(g))
}

// The sequence of an accepted generator.

pub fn element_of(g: Generator, index: u64) -> u64 {
    match method(g) {
        Method::Prime => prime::element(g, index),
        Method::Stepping => Trail::of(g).element(index),
        Method::Formula => formula::element(g, index),
    }
}

/// The preperiod, and the period as an exponent or, at width 0, itself, the other of the two 0.
fn orbit_of(g: Generator) -> (u64, u64, u64) {
    match method(g) {
        Method::Prime => (0, 0, prime::PERIOD),
        Method::Stepping => {
            let trail = Trail::of(g);
            (trail.preperiod(), trail.exponent(), 0)
        }
        Method::Formula => (0, formula::exponent(g), 0),
    }
}

fn index_of(g: Generator, number: u64) -> Option<u64> {
    if !is_of_width(g, number) {
        return None;
    }
    match method(g) {
        Method::Prime => prime::index(g, number),
        Method::Stepping => Trail::of(g).index(number),
        Method::Formula => formula::index(g, number),
    }
}

/// The lowest bits of the elements are a sequence of this width.
fn low_bits(g: Generator, places: u64) -> Generator {
    let operand = |x: u64| low(x.into(), places);
    let (multiplier, increment, seed) = (operand(g.multiplier), operand(g.increment), operand(g.seed));
    Generator { width: places, multiplier, increment, seed }
}

/// The least index at which the lowest bits are the number and, if they are so again, the exponent of
/// the distance.
fn occurrences_of(g: Generator, places: u64, number: u64) -> Option<(u64, Option<u64>)> {
    let low = low_bits(g, places);
    let index = index_of(low, number)?;
    let (preperiod, exponent, _) = orbit_of(low);
    Some((index, (index >= preperiod).then_some(exponent)))
}

/// How many steps lead from one number to another, both on the orbit of an odd multiplier.
fn steps_between(g: Generator, from: u64, to: u64) -> Option<u64> {
    if !matches!(method(g), Method::Stepping) {
        return index_of(Generator { seed: from, ..g }, to);
    }
    let (mut x, mut count) = (from, 0);
    while x != to {
        (x, count) = (step(g, x), count + 1);
    }
    Some(count)
}

/// The shorter way, backward ones negative and preferred if both are as long.
fn gap_of(g: Generator, from: u64, to: u64) -> Option<i64> {
    index_of(g, from).and(index_of(g, to))?;
    let (forward, backward) = (steps_between(g, from, to)?, steps_between(g, to, from)?);
    let gap = if forward < backward { forward.into() } else { -i128::from(backward) };
    Some(gap.try_into().expect("a gap of more than half a period"))
}

/// How many different numbers the run shows. Behind as many positions as a trail has elements nothing
/// is new; of a sequence that is not stepped through every element is in its period.
fn variety_of(run: Run) -> u64 {
    let Some(trail) = trail(run.generator) else {
        return period_of(orbit(run.generator)).min(run.count.into()) as u64;
    };
    let positions = 0..run.count.min(trail.size());
    let shown: HashSet<u64> = positions.map(|position| trail.element(run.first + position)).collect();
    shown.len() as u64
}

/// The least position of the run that shows the number.
fn position_of(run: Run, number: u64) -> Option<u64> {
    let seed = element_of(run.generator, run.first);
    index_of(Generator { seed, ..run.generator }, number).filter(|&position| position < run.count)
}

// Refusals, 0 for none.

fn fits(number: u64, width: u64) -> bool {
    (number as u128) < 1 << width
}

/// Whether the number is one of those that a generator of this width may yield.
fn is_of_width(g: Generator, number: u64) -> bool {
    match kind(g) {
        Kind::Prime => prime::yields(number),
        Kind::Linear => fits(number, g.width),
    }
}

fn operands_fit(g: Generator) -> bool {
    match kind(g) {
        Kind::Prime => prime::accepts(g),
        Kind::Linear => [g.multiplier, g.increment, g.seed].iter().all(|&operand| fits(operand, g.width)),
    }
}

fn generator_refusal(g: Generator) -> u64 {
    if g.width > 64 {
        WIDTH_OUT_OF_RANGE
    } else if !operands_fit(g) {
        OPERAND_OUT_OF_RANGE
    } else {
        0
    }
}

fn run_refusal(run: Run) -> u64 {
    match generator_refusal(run.generator) {
        0 if run.count == 0 || run.first.checked_add(run.count).is_none() => RUN_OUT_OF_RANGE,
        refusal => refusal,
    }
}

// The calls on one generator or run.

pub fn element(g: Generator, index: u64) -> Value {
    match generator_refusal(g) {
        0 => Value { refusal: 0, value: element_of(g, index) },
        refusal => Value { refusal, value: 0 },
    }
}

pub fn orbit(g: Generator) -> OrbitReply {
    let refusal = generator_refusal(g);
    let (preperiod, exponent, period) = if refusal == 0 { orbit_of(g) } else { (0, 0, 0) };
    OrbitReply { refusal, preperiod, exponent, period }
}

pub fn index(g: Generator, number: u64) -> IndexReply {
    let refusal = generator_refusal(g);
    let found = if refusal == 0 { index_of(g, number) } else { None };
    IndexReply { refusal, found: found.is_some().into(), index: found.unwrap_or(0) }
}

pub fn index_places(g: Generator, places: u64, number: u64) -> PlacesReply {
    let refusal = match generator_refusal(g) {
        0 if !(1..=g.width).contains(&places) => PLACES_OUT_OF_RANGE,
        refusal => refusal,
    };
    let found = if refusal == 0 { occurrences_of(g, places, number) } else { None };
    match found {
        Some((index, Some(exponent))) => PlacesReply { refusal: 0, found: 1, index, recurs: 1, exponent },
        Some((index, None)) => PlacesReply { refusal: 0, found: 1, index, recurs: 0, exponent: 0 },
        None => PlacesReply { refusal, ..PlacesReply::default() },
    }
}

/// The same for every number below 2^places, by the definition alone, at a narrow width: the elements
/// are stepped through in all their bits, and the indices of each number listed. Preperiod and period
/// are at most 2^width together, so the lists go over two periods: what stands there twice goes on as
/// it began, and what stands there once does not come again.
pub fn index_places_by_lists(g: Generator, places: u64) -> Vec<PlacesReply> {
    let mut lists = vec![Vec::new(); 1 << places];
    let mut x = g.seed;
    for index in 0..2 << g.width {
        lists[low(x.into(), places) as usize].push(index);
        x = step(g, x);
    }
    lists.iter().map(|indices| reply_of_list(indices)).collect()
}

/// The indices have to be at one distance, a power of two.
fn reply_of_list(indices: &[u64]) -> PlacesReply {
    match *indices {
        [] => PlacesReply::default(),
        [index] => PlacesReply { refusal: 0, found: 1, index, recurs: 0, exponent: 0 },
        [index, second, ..] => {
            let distance: u64 = second - index;
            let steady = indices.windows(2).all(|pair| pair[1] - pair[0] == distance);
            assert!(distance.is_power_of_two() && steady, "{indices:?}");
            PlacesReply { refusal: 0, found: 1, index, recurs: 1, exponent: distance.ilog2().into() }
        }
    }
}

pub fn gap(g: Generator, from: u64, to: u64) -> GapReply {
    let refusal = match generator_refusal(g) {
        0 if !is_odd(g.multiplier) => NOT_INVERTIBLE,
        refusal => refusal,
    };
    let found = if refusal == 0 { gap_of(g, from, to) } else { None };
    GapReply { refusal, found: found.is_some().into(), steps: found.unwrap_or(0) }
}

pub fn predecessor(g: Generator, number: u64) -> Value {
    let refusal = match generator_refusal(g) {
        0 if !is_of_width(g, number) => VALUE_OUT_OF_RANGE,
        0 if !is_odd(g.multiplier) => NOT_INVERTIBLE,
        0 if kind(g) == Kind::Prime => return Value { refusal: 0, value: prime::predecessor(number) },
        refusal => refusal,
    };
    if refusal != 0 {
        return Value { refusal, value: 0 };
    }
    let inverse = formula::inverse(g.multiplier);
    let value = number.wrapping_sub(g.increment).wrapping_mul(inverse);
    Value { refusal: 0, value: low(value.into(), g.width) }
}

pub fn variety(run: Run) -> Value {
    match run_refusal(run) {
        0 => Value { refusal: 0, value: variety_of(run) },
        refusal => Value { refusal, value: 0 },
    }
}

/// The same of the runs of 0, 1, 2, .. positions from an index on, by the definition alone, at a narrow
/// width: the elements are stepped through, and each that was not seen before is counted.
pub fn varieties_by_counting(g: Generator, first: u64, longest: u64) -> Vec<Value> {
    let mut seen = vec![false; 1 << g.width];
    let mut x = (0..first).fold(g.seed, |x, _| step(g, x));
    let mut varieties = vec![Value { refusal: RUN_OUT_OF_RANGE, value: 0 }];
    let mut value = 0;
    for _ in 0..longest {
        value += u64::from(!std::mem::replace(&mut seen[x as usize], true));
        varieties.push(Value { refusal: 0, value });
        x = step(g, x);
    }
    varieties
}

pub fn customary_multiplier(width: u64) -> Value {
    if !(3..=64).contains(&width) {
        return Value { refusal: WIDTH_OUT_OF_RANGE, value: 0 };
    }
    let odd_powers = (1..).step_by(2).map(|exponent| 5u128.pow(exponent));
    let value = odd_powers.take_while(|&power| power < 1 << width).last();
    Value { refusal: 0, value: value.unwrap_or(0) as u64 }
}

/// Each number by itself.
pub fn remake(run: Run, position: u64, values: &mut [u64]) -> Value {
    let refusal = run_refusal(run);
    if refusal != 0 {
        return Value { refusal, value: 0 };
    }
    let trail = trail(run.generator);
    let mut count = 0;
    for (value, p) in values.iter_mut().zip(position..run.count) {
        let index = run.first + p;
        *value =
            trail.as_ref().map_or_else(|| element_of(run.generator, index), |trail| trail.element(index));
        count += 1;
    }
    Value { refusal: 0, value: count }
}

// Lines and archives.

pub fn write_line(run: Run, buffer: &mut [u8]) -> Value {
    let line = line_of(&run);
    let refusal = match run_refusal(run) {
        0 if buffer.len() < line.len() => BUFFER_TOO_SHORT,
        refusal => refusal,
    };
    if refusal != 0 {
        return Value { refusal, value: 0 };
    }
    buffer[..line.len()].copy_from_slice(&line);
    Value { refusal: 0, value: line.len() as u64 }
}

fn field(text: &[u8]) -> Option<u64> {
    let canonical = text == b"0" || !text.starts_with(b"0");
    if !canonical || !text.iter().all(u8::is_ascii_digit) {
        return None;
    }
    std::str::from_utf8(text).ok()?.parse().ok()
}

/// The run of a line, or the refusal.
fn parsed(line: &[u8]) -> Result<Run, u64> {
    let text = line.strip_suffix(b"\n").ok_or(MALFORMED_LINE)?;
    let fields: Option<Vec<u64>> = text.split(|&byte| byte == b',').map(field).collect();
    let numbers: [u64; 6] = fields.and_then(|fields| fields.try_into().ok()).ok_or(MALFORMED_LINE)?;
    let run = Run::from(numbers);
    match run_refusal(run) {
        0 => Ok(run),
        refusal => Err(refusal),
    }
}

pub fn read_line(bytes: &[u8]) -> RunReply {
    parsed(bytes).map_or_else(refused, accepted)
}

fn lines(archive: &[u8]) -> impl Iterator<Item = &[u8]> {
    archive.split_inclusive(|&byte| byte == b'\n')
}

/// The runs of an archive, or the refusal and the line that it concerns.
fn runs(archive: &[u8]) -> Result<Vec<Run>, (u64, u64)> {
    if archive.len() > ARCHIVE_LIMIT {
        return Err((ARCHIVE_TOO_LONG, 0));
    }
    let mut earlier = HashSet::new();
    let run_of = |line| match parsed(line) {
        Ok(_) if !earlier.insert(line) => Err(DUPLICATE_LINE),
        answer => answer,
    };
    let answers = lines(archive).map(run_of).zip(1..);
    answers.map(|(answer, number)| answer.map_err(|refusal| (refusal, number))).collect()
}

pub fn line(archive: &[u8], number: u64) -> Part {
    if runs(archive).is_err() {
        return Part::default();
    }
    let mut start = 0;
    for (line, line_number) in lines(archive).zip(1..) {
        let length = line.len() as u64;
        if line_number == number {
            return Part { start, length };
        }
        start += length;
    }
    Part::default()
}

pub fn lookup(archive: &[u8], number: u64) -> LookupReply {
    let runs = match runs(archive) {
        Ok(runs) => runs,
        Err((refusal, line)) => return LookupReply { refusal, line, found: 0, position: 0 },
    };
    let mut places = runs.iter().zip(1..).filter_map(|(&run, line)| Some((line, position_of(run, number)?)));
    match places.next() {
        Some((line, position)) => LookupReply { refusal: 0, line, found: 1, position },
        None => LookupReply::default(),
    }
}

/// The sum of all counts is made in 128 bits, and only then compared with the largest of 64.
pub fn summary(archive: &[u8]) -> SummaryReply {
    let runs = match runs(archive) {
        Ok(runs) => runs,
        Err((refusal, line)) => return SummaryReply { refusal, line, line_count: 0, total: 0 },
    };
    let total: u128 = runs.iter().map(|run| u128::from(run.count)).sum();
    match total.try_into() {
        Ok(total) => SummaryReply { refusal: 0, line: 0, line_count: runs.len() as u64, total },
        Err(_) => SummaryReply { refusal: TOTAL_OVERFLOW, ..SummaryReply::default() },
    }
}

#[cfg(test)]
mod tests {
    use super::*;
    use crate::random::Random;
    use crate::samples;

    fn generator(n: &[u64]) -> Generator {
        Generator { width: n[0], multiplier: n[1], increment: n[2], seed: n[3] }
    }

    fn value(v: Value) -> Vec<u64> {
        vec![v.refusal, v.value]
    }

    fn run_reply(r: RunReply) -> Vec<u64> {
        let numbers: [u64; 6] = r.run.into();
        [&[r.refusal], numbers.as_slice()].concat()
    }

    fn reply_on_generator(code: &str, n: &[u64]) -> Vec<u64> {
        let g = generator(n);
        match code {
            "E" => value(element(g, n[4])),
            "P" => value(predecessor(g, n[4])),
            "O" => {
                let r = orbit(g);
                vec![r.refusal, r.preperiod, r.exponent, r.period]
            }
            "I" => {
                let r = index(g, n[4]);
                vec![r.refusal, r.found, r.index]
            }
            "B" => {
                let r = index_places(g, n[4], n[5]);
                vec![r.refusal, r.found, r.index, r.recurs, r.exponent]
            }
            "G" => {
                let r = gap(g, n[4], n[5]);
                vec![r.refusal, r.found, (r.steps < 0).into(), r.steps.unsigned_abs()]
            }
            _ => panic!("no call {code}"),
        }
    }

    fn player_call(code: u64, run: Run, argument: u64) -> PlayerCall {
        match code {
            0 => PlayerCall::Open(run),
            1 => PlayerCall::Forward(argument),
            2 => PlayerCall::Back(argument),
            3 => PlayerCall::Mark(argument),
            4 => PlayerCall::Return(argument),
            5 => PlayerCall::Show,
            _ => panic!("no call {code} on a player"),
        }
    }

    /// The record after it too.
    fn reply_on_player(n: &[u64]) -> Vec<u64> {
        let run = |n: &[u64]| Run { generator: generator(n), first: n[4], count: n[5] };
        let marks = std::array::from_fn(|at| Mark { set: n[7 + 2 * at], position: n[8 + 2 * at] });
        let mut player = Player { run: run(n), position: n[6], marks };
        let mut reply = Value::default();
        for call in n[21..].chunks(2) {
            reply = player::played(&mut player, player_call(call[0], run(&n[15..]), call[1]));
        }
        let run: [u64; 6] = player.run.into();
        let marks = player.marks.map(|mark| [mark.set, mark.position]).concat();
        [value(reply), run.into(), vec![player.position], marks].concat()
    }

    /// The reply to one call of the vectors, its bytes without their count.
    fn reply(code: &str, n: &[u64]) -> Vec<u64> {
        let bytes = |from: usize| n[from + 1..].iter().map(|&byte| byte as u8).collect::<Vec<u8>>();
        let run = |n: &[u64]| Run { generator: generator(n), first: n[4], count: n[5] };
        match code {
            "C" => value(customary_multiplier(n[0])),
            "V" => value(variety(run(n))),
            "W" => value(write_line(run(n), &mut vec![0; n[6] as usize])),
            "M" => {
                let mut values = [1, 2, 3, 4, 5];
                let r = remake(run(n), n[6], &mut values[..n[7] as usize]);
                [&[r.refusal, r.value], values.as_slice()].concat()
            }
            "R" => run_reply(read_line(&bytes(0))),
            "L" => {
                let r = line(&bytes(1), n[0]);
                vec![r.start, r.length]
            }
            "F" => {
                let r = lookup(&bytes(1), n[0]);
                vec![r.refusal, r.line, r.found, r.position]
            }
            "S" => {
                let r = summary(&bytes(0));
                vec![r.refusal, r.line, r.line_count, r.total]
            }
            "K" => reply_on_player(n),
            "D" => {
                let r = fix::fix_at(run(n), n[6]);
                vec![r.refusal, r.east, r.north]
            }
            "J" => run_reply(lane::lane(run(n), n[6], n[7])),
            "T" => value(lane::write_lane(run(n), n[6], n[7], &mut vec![0; n[8] as usize])),
            "H" => value(shared::shared(run(n), run(&n[6..]))),
            _ => reply_on_generator(code, n),
        }
    }

    #[test]
    fn model_agrees_with_the_reference() {
        let calls = include_str!("../../../crates/vectors/stdin").lines();
        for (call, expected) in calls.zip(include_str!("../../../crates/vectors/stdout").lines()) {
            let (code, numbers) = call.split_once(',').unwrap();
            let numbers: Vec<u64> = numbers.split(',').map(|n| n.parse().unwrap()).collect();
            let got: Vec<String> = reply(code, &numbers).iter().map(u64::to_string).collect();
            assert_eq!(got.join(","), expected, "{call}");
        }
    }

    /// Every generator of widths 1 to 4.
    fn narrow_generators() -> impl Iterator<Item = Generator> {
        (1..=4).flat_map(|width| {
            let size = 1 << width;
            (0..size * size * size).map(move |k| {
                let (multiplier, increment, seed) = (k / size / size, k / size % size, k % size);
                Generator { width, multiplier, increment, seed }
            })
        })
    }

    #[test]
    fn index_places_agrees_with_the_lists() {
        for g in narrow_generators() {
            for places in 1..=g.width {
                let lists = index_places_by_lists(g, places);
                for number in 0..=1 << places {
                    let wanted = lists.get(number as usize).copied().unwrap_or_default();
                    assert_eq!(index_places(g, places, number), wanted, "{places}, {number} in {g:?}");
                }
            }
        }
    }

    #[test]
    fn variety_agrees_with_the_counting() {
        for generator in narrow_generators() {
            for first in 0..6 {
                for (count, wanted) in (0..).zip(varieties_by_counting(generator, first, 20)) {
                    let run = Run { generator, first, count };
                    assert_eq!(variety(run), wanted, "{run:?}");
                }
            }
        }
    }

    /// Every sixteenth of width 0.
    fn any_generator(r: &mut Random) -> Generator {
        if r.one_in(16) {
            samples::prime_generator(r)
        } else {
            samples::generator(r)
        }
    }

    /// The last position that is counted shows what none before it does, and those tried behind it what a
    /// counted one does.
    #[test]
    fn variety_agrees_with_its_definition() {
        let mut r = Random::new(5);
        for _ in 0..100_000 {
            let generator = any_generator(&mut r);
            let run = samples::run(&mut r, generator);
            let Value { refusal, value } = variety(run);
            if refusal != 0 {
                continue;
            }
            let first_shown = |position| position_of(run, element_of(run.generator, run.first + position));
            assert_eq!(first_shown(value - 1), Some(value - 1), "{run:?}");
            if value < run.count {
                for position in [value, value + r.below(run.count - value), run.count - 1] {
                    let earlier = first_shown(position).unwrap();
                    assert!(earlier < value, "position {position} of {run:?}");
                }
            }
        }
    }

    /// The low bits are the number at the index and 2^exponent on, but at no smaller power of two on; at
    /// no lower index, so far as that is tried.
    #[test]
    fn index_places_agrees_with_its_definition() {
        let mut r = Random::new(4);
        for _ in 0..100_000 {
            let g = samples::generator(&mut r);
            let (places, number) = samples::places_and_number(&mut r, g);
            let PlacesReply { refusal, found, index, recurs, exponent } = index_places(g, places, number);
            if refusal != 0 {
                continue;
            }
            let agrees = |i: u64| low(element_of(g, i).into(), places) == number;
            let call = format!("{places}, {number} in {g:?}");
            assert!((0..4).chain([r.any()]).all(|i| !agrees(i) || found == 1 && index <= i), "{call}");
            assert!(found == 0 || agrees(index), "{call}");
            for e in 0..64 {
                let Some(later) = index.checked_add(1 << e) else { break };
                assert!(found == 0 || agrees(later) == (recurs == 1 && e >= exponent), "{call}, 2^{e} on");
            }
        }
    }

    /// Within half a period, from the one number to the other or back; never if one has no index.
    #[test]
    fn gap_agrees_with_its_definition() {
        let mut r = Random::new(3);
        for _ in 0..100_000 {
            let g = any_generator(&mut r);
            let (from, to) = samples::two_numbers(&mut r, g);
            let GapReply { refusal, found, steps } = gap(g, from, to);
            if refusal != 0 {
                continue;
            }
            assert_eq!(found, index(g, from).found & index(g, to).found, "{from}, {to} in {g:?}");
            let (period, twice) = (period_of(orbit(g)) as i128, 2 * i128::from(steps));
            assert!(-period <= twice && twice < period, "{steps} from {from} to {to} in {g:?}");
            let (start, end) = if steps < 0 { (to, from) } else { (from, to) };
            let reached = element_of(Generator { seed: start, ..g }, steps.unsigned_abs());
            assert!(found == 0 || reached == end, "{steps} from {from} to {to} in {g:?}");
        }
    }
}
