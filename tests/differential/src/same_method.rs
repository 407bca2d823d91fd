//! The library's own methods in plain Rust, to measure it against: jumps from the lowest bit of the
//! index up, the search up the bit places, lines in one pass, equal ones by chains of those whose hash
//! falls into one slot; at width 0 what `prime` has, of the player what `player` has, of the fixes what `fix`
//! has, of the lanes what `lane` has, and of two runs what `shared` has.

use crate::calls::*;
use crate::prime::PERIOD;

mod fix;
mod lane;
mod player;
mod prime;
mod shared;

pub use fix::*;
pub use lane::*;
pub use player::*;
pub use shared::*;

/// The map of some number of steps: times `factor`, plus `summand`, modulo 2^64.
#[derive(Clone, Copy)]
struct Map {
    factor: u64,
    summand: u64,
}

impl Map {
    const IDENTITY: Map = Map { factor: 1, summand: 0 };

    fn step(g: Generator) -> Map {
        Map { factor: g.multiplier, summand: g.increment }
    }

    fn apply(self, x: u64) -> u64 {
        self.factor.wrapping_mul(x).wrapping_add(self.summand)
    }

    fn then(self, next: Map) -> Map {
        Map { factor: self.factor.wrapping_mul(next.factor), summand: next.apply(self.summand) }
    }
}

/// A jump under way: the map of 1, 2, 4, .. steps, that of the steps done, and the index left.
#[derive(Clone, Copy)]
struct Jump {
    stride: Map,
    done: Map,
    left: u64,
}

impl Jump {
    /// Does what the lowest bit asks for, doubles the stride and halves the index. At index 0 the map
    /// done stays as it is.
    fn round(self) -> Jump {
        let selected = if self.left & 1 == 1 { self.stride } else { Map::IDENTITY };
        Jump { stride: self.stride.then(self.stride), done: self.done.then(selected), left: self.left / 2 }
    }

    fn four_rounds(self) -> Jump {
        self.round().round().round().round()
    }

    fn finish(self) -> Map {
        if self.left == 0 {
            return self.done;
        }
        self.four_rounds().four_rounds().finish()
    }
}

/// The map of `count` steps.
fn steps(one: Map, count: u64) -> Map {
    Jump { stride: one, done: Map::IDENTITY, left: count }.finish()
}

fn mask(width: u64) -> u64 {
    u64::MAX >> (64 - width)
}

#[derive(Clone, Copy, PartialEq)]
enum Kind {
    Linear,
    Prime,
}

fn kind(g: Generator) -> Kind {
    if g.width == 0 {
        Kind::Prime
    } else {
        Kind::Linear
    }
}

fn operands_fit(g: Generator) -> bool {
    match kind(g) {
        Kind::Prime => prime::accepts(g),
        Kind::Linear => {
            let top = mask(g.width);
            g.multiplier <= top && g.increment <= top && g.seed <= top
        }
    }
}

fn generator_refusal(g: Generator) -> u64 {
    if g.width > 64 {
        WIDTH_OUT_OF_RANGE
    } else if !operands_fit(g) {
        OPERAND_OUT_OF_RANGE
    } else {
        0
    }
}

fn run_refusal(run: Run) -> u64 {
    let refusal = generator_refusal(run.generator);
    if refusal == 0 && (run.count == 0 || run.count > u64::MAX - run.first) {
        return RUN_OUT_OF_RANGE;
    }
    refusal
}

fn element_of(g: Generator, index: u64) -> u64 {
    match kind(g) {
        Kind::Prime => prime::element(g.seed, index),
        Kind::Linear => steps(Map::step(g), index).apply(g.seed) & mask(g.width),
    }
}

/// For an odd multiplier the index and the period, 0 for 2^64. Up to each place `index` is the least
/// index that agrees with the number and `away` what its element is above the number; one period of
/// the places so far multiplies what an element is above the number by `factor` and adds `drift`.
fn index_up_the_places(g: Generator, number: u64) -> Option<(u64, u64)> {
    let (mut index, mut period, mut factor) = (0u64, 1u64, g.multiplier);
    let mut away = g.seed.wrapping_sub(number);
    let mut drift = Map::step(g).apply(number).wrapping_sub(number);
    let mut first = away.trailing_zeros() as u64;
    for place in 0..g.width {
        let differs = first == place;
        if drift.trailing_zeros() as u64 == place {
            let moved = factor.wrapping_mul(away).wrapping_add(drift);
            let square = factor.wrapping_mul(factor);
            drift = factor.wrapping_add(1).wrapping_mul(drift);
            factor = square;
            if differs {
                index = index.wrapping_add(period);
                away = moved;
                first = moved.trailing_zeros() as u64;
            }
            period = period.wrapping_add(period);
        } else if differs {
            return None;
        }
    }
    Some((index, period))
}

/// For an even multiplier, whose sequence stands still after at most n steps.
fn index_by_steps(g: Generator, number: u64) -> Option<u64> {
    let mut x = g.seed;
    for index in 0..=g.width {
        if x == number {
            return Some(index);
        }
        x = Map::step(g).apply(x) & mask(g.width);
    }
    None
}

fn index_of(g: Generator, number: u64) -> Option<u64> {
    if kind(g) == Kind::Prime {
        prime::index(g.seed, number)
    } else if number > mask(g.width) {
        None
    } else if g.multiplier % 2 == 1 {
        index_up_the_places(g, number).map(|(index, _)| index)
    } else {
        index_by_steps(g, number)
    }
}

/// Over the lowest places only. A period of 2^64, which is 0, has 64 zero bits as well; for an even
/// multiplier the number recurs if one more step keeps it.
fn occurrences_of(g: Generator, places: u64, number: u64) -> Option<PlacesReply> {
    if number > mask(places) {
        return None;
    }
    let low = Generator { width: places, seed: g.seed & mask(places), ..g };
    if g.multiplier % 2 == 1 {
        let (index, period) = index_up_the_places(low, number)?;
        let exponent = period.trailing_zeros().into();
        return Some(PlacesReply { refusal: 0, found: 1, index, recurs: 1, exponent });
    }
    let index = index_by_steps(low, number)?;
    let recurs = (Map::step(g).apply(number) & mask(places) == number).into();
    Some(PlacesReply { refusal: 0, found: 1, index, recurs, exponent: 0 })
}

/// A function of its own: two of the loops in `gap` would be short of registers, and take a sixth
/// longer.
#[inline(never)]
fn index_and_period(g: Generator, number: u64) -> Option<(u64, u64)> {
    index_up_the_places(g, number)
}

fn prime_gap_of(g: Generator, from: u64, to: u64) -> Option<i64> {
    let (start, end) = (prime::index(g.seed, from)?, prime::index(g.seed, to)?);
    let forward = if start <= end { end - start } else { end + PERIOD - start };
    Some(if forward < PERIOD / 2 { forward as i64 } else { forward as i64 - PERIOD as i64 })
}

/// For an odd multiplier, from the indices of both numbers.
fn gap_of(g: Generator, from: u64, to: u64) -> Option<i64> {
    if kind(g) == Kind::Prime {
        return prime_gap_of(g, from, to);
    }
    if from > mask(g.width) || to > mask(g.width) {
        return None;
    }
    let (start, _) = index_and_period(g, from)?;
    let (end, period) = index_and_period(g, to)?;
    let last = period.wrapping_sub(1);
    let forward = end.wrapping_sub(start) & last;
    Some(if forward > last / 2 { forward | !last } else { forward } as i64)
}

/// The preperiod and the period less 1. With an even multiplier neighbours first differ a number of
/// places higher at each step, until all places agree.
fn cycle_of(g: Generator) -> (u64, u64) {
    if kind(g) == Kind::Prime {
        return (0, PERIOD - 1);
    }
    if g.multiplier % 2 == 1 {
        let period = index_up_the_places(g, g.seed).map_or(1, |(_, period)| period);
        return (0, period.wrapping_sub(1));
    }
    let place = Map::step(g).apply(g.seed).wrapping_sub(g.seed).trailing_zeros().into();
    (g.width.saturating_sub(place).div_ceil(g.multiplier.trailing_zeros().into()), 0)
}

#[inline(never)]
pub fn variety(run: Run) -> Value {
    let refusal = run_refusal(run);
    if refusal != 0 {
        return Value { refusal, value: 0 };
    }
    let (preperiod, last) = cycle_of(run.generator);
    let last_new = preperiod.saturating_sub(run.first) + last;
    Value { refusal: 0, value: run.count.min(last_new.saturating_add(1)) }
}

#[inline(never)]
pub fn element(g: Generator, index: u64) -> Value {
    match generator_refusal(g) {
        0 => Value { refusal: 0, value: element_of(g, index) },
        refusal => Value { refusal, value: 0 },
    }
}

/// A period of 2^64, whose last index is 2^64 − 1, has 64 one bits there.
#[inline(never)]
pub fn orbit(g: Generator) -> OrbitReply {
    let refusal = generator_refusal(g);
    if refusal != 0 {
        return OrbitReply { refusal, ..OrbitReply::default() };
    }
    let (preperiod, last) = cycle_of(g);
    match kind(g) {
        Kind::Prime => OrbitReply { preperiod, period: last + 1, ..OrbitReply::default() },
        Kind::Linear => OrbitReply { preperiod, exponent: last.count_ones().into(), ..OrbitReply::default() },
    }
}

/// The inverse of an odd number modulo 2^64, by Newton's steps: it inverts itself in two places, and each
/// step doubles these.
fn inverse(odd: u64) -> u64 {
    (0..5).fold(odd, |x, _| x.wrapping_mul(2u64.wrapping_sub(odd.wrapping_mul(x))))
}

fn predecessor_of(g: Generator, number: u64) -> u64 {
    match kind(g) {
        Kind::Prime => prime::previous(number),
        Kind::Linear => inverse(g.multiplier).wrapping_mul(number.wrapping_sub(g.increment)) & mask(g.width),
    }
}

#[inline(never)]
pub fn predecessor(g: Generator, number: u64) -> Value {
    let refusal = generator_refusal(g);
    if refusal != 0 {
        return Value { refusal, value: 0 };
    }
    let fits = match kind(g) {
        Kind::Prime => prime::yields(number),
        Kind::Linear => number <= mask(g.width),
    };
    if !fits {
        return Value { refusal: VALUE_OUT_OF_RANGE, value: 0 };
    }
    if g.multiplier & 1 == 0 {
        return Value { refusal: NOT_INVERTIBLE, value: 0 };
    }
    Value { refusal: 0, value: predecessor_of(g, number) }
}

#[inline(never)]
pub fn index(g: Generator, number: u64) -> IndexReply {
    let refusal = generator_refusal(g);
    if refusal != 0 {
        return IndexReply { refusal, found: 0, index: 0 };
    }
    match index_of(g, number) {
        Some(index) => IndexReply { refusal: 0, found: 1, index },
        None => IndexReply::default(),
    }
}

#[inline(never)]
pub fn index_places(g: Generator, places: u64, number: u64) -> PlacesReply {
    let refusal = generator_refusal(g);
    if refusal != 0 {
        return PlacesReply { refusal, ..PlacesReply::default() };
    }
    if places == 0 || places > g.width {
        return PlacesReply { refusal: PLACES_OUT_OF_RANGE, ..PlacesReply::default() };
    }
    occurrences_of(g, places, number).unwrap_or_default()
}

#[inline(never)]
pub fn gap(g: Generator, from: u64, to: u64) -> GapReply {
    let refusal = generator_refusal(g);
    if refusal != 0 {
        return GapReply { refusal, ..GapReply::default() };
    }
    if g.multiplier & 1 == 0 {
        return GapReply { refusal: NOT_INVERTIBLE, ..GapReply::default() };
    }
    match gap_of(g, from, to) {
        Some(steps) => GapReply { refusal: 0, found: 1, steps },
        None => GapReply::default(),
    }
}

#[inline(never)]
pub fn remake(run: Run, position: u64, values: &mut [u64]) -> Value {
    let refusal = run_refusal(run);
    let left = run.count.saturating_sub(position);
    if refusal != 0 || left == 0 {
        return Value { refusal, value: 0 };
    }
    let count = left.min(values.len() as u64);
    let (g, values) = (run.generator, &mut values[..count as usize]);
    let x = element_of(g, run.first + position);
    match kind(g) {
        Kind::Prime => fill(values, x, prime::next),
        Kind::Linear => {
            let (one, top) = (Map::step(g), mask(g.width));
            fill(values, x, |x| one.apply(x) & top);
        }
    }
    Value { refusal: 0, value: count }
}

/// Stepping from x on.
fn fill(values: &mut [u64], mut x: u64, step: impl Fn(u64) -> u64) {
    for value in values {
        *value = x;
        x = step(x);
    }
}

fn digits(number: u64) -> usize {
    1 + number.checked_ilog10().unwrap_or(0) as usize
}

fn write_field(number: u64, field: &mut [u8]) {
    let mut rest = number;
    for byte in field.iter_mut().rev() {
        *byte = b'0' + (rest % 10) as u8;
        rest /= 10;
    }
}

#[inline(never)]
pub fn write_line(run: Run, buffer: &mut [u8]) -> Value {
    let refusal = run_refusal(run);
    if refusal != 0 {
        return Value { refusal, value: 0 };
    }
    let numbers: [u64; 6] = run.into();
    let length: usize = numbers.iter().map(|&number| digits(number) + 1).sum();
    if buffer.len() < length {
        return Value { refusal: BUFFER_TOO_SHORT, value: 0 };
    }
    let mut at = 0;
    for number in numbers {
        let end = at + digits(number);
        write_field(number, &mut buffer[at..end]);
        buffer[end] = b',';
        at = end + 1;
    }
    buffer[length - 1] = b'\n';
    Value { refusal: 0, value: length as u64 }
}

/// The field that begins at `at` and is ended by the given byte, and what follows behind that.
fn field(bytes: &[u8], at: usize, end: u8) -> Option<(u64, usize)> {
    let (mut number, mut next) = (0u64, at);
    while next < bytes.len() && bytes[next].is_ascii_digit() {
        let digit = (bytes[next] - b'0') as u64;
        if number > (u64::MAX - digit) / 10 {
            return None;
        }
        number = 10 * number + digit;
        next += 1;
    }
    let canonical = next == at + 1 || (next > at && bytes[at] != b'0');
    (canonical && next < bytes.len() && bytes[next] == end).then_some((number, next + 1))
}

/// The run whose line begins at `at`, and where the next line begins.
fn read(bytes: &[u8], at: usize) -> Result<(Run, usize), u64> {
    let (mut numbers, mut next) = ([0; 6], at);
    for (number, end) in numbers.iter_mut().zip(*b",,,,,\n") {
        (*number, next) = field(bytes, next, end).ok_or(MALFORMED_LINE)?;
    }
    let run = Run::from(numbers);
    match run_refusal(run) {
        0 => Ok((run, next)),
        refusal => Err(refusal),
    }
}

#[inline(never)]
pub fn read_line(bytes: &[u8]) -> RunReply {
    match read(bytes, 0) {
        Ok((run, end)) if end == bytes.len() => accepted(run),
        Ok(_) => refused(MALFORMED_LINE),
        Err(refusal) => refused(refusal),
    }
}

/// A line's number from 1, and where it begins and ends.
#[derive(Clone, Copy)]
struct Line {
    number: u64,
    start: usize,
    end: usize,
}

/// Calls `visit` with each run and its line until it gives an answer.
fn each_run<T>(
    archive: &[u8],
    mut visit: impl FnMut(Run, Line) -> Option<T>,
) -> Result<Option<T>, (u64, u64)> {
    let (mut start, mut number) = (0, 1);
    while start < archive.len() {
        let (run, end) = read(archive, start).map_err(|refusal| (refusal, number))?;
        if let Some(answer) = visit(run, Line { number, start, end }) {
            return Ok(Some(answer));
        }
        (start, number) = (end, number + 1);
    }
    Ok(None)
}

fn place_in(run: Run, line: Line, number: u64) -> Option<LookupReply> {
    let seed = element_of(run.generator, run.first);
    let position = index_of(Generator { seed, ..run.generator }, number)?;
    (position < run.count).then_some(LookupReply { refusal: 0, line: line.number, found: 1, position })
}

/// What each number is multiplied into a hash with, 2^64 over the golden ratio.
pub const HASH_FACTOR: u64 = 0x9e37_79b9_7f4a_7c15;

fn hash_of(run: &Run) -> u64 {
    let numbers: [u64; 6] = (*run).into();
    numbers.iter().fold(0, |hash, &number| HASH_FACTOR.wrapping_mul(number.wrapping_add(hash)))
}

/// Among so many slots, at most 2^32, by the upper half of the hash.
pub fn slot_of(run: &Run, slots: usize) -> usize {
    (((hash_of(run) >> 32) * slots as u64) >> 32) as usize
}

const SHORT_ARCHIVE: usize = 1024;
const SHORT_SLOTS: usize = 64;
const LONG_SLOTS: usize = 4096;
/// No line is shorter.
const SHORTEST_LINE: usize = 12;

/// How many slots the chains of an archive of this length have.
pub fn slots_for(length: usize) -> usize {
    if length <= SHORT_ARCHIVE {
        SHORT_SLOTS
    } else {
        LONG_SLOTS
    }
}

/// The lines so far. A mark is where a line begins, and 1; 0 is none. Of each slot the newest line is
/// marked, and of each line, found by where it begins, the next older one in its slot.
struct Chains<const SLOTS: usize, const LINES: usize> {
    head: [u16; SLOTS],
    next: [u16; LINES],
}

impl<const SLOTS: usize, const LINES: usize> Chains<SLOTS, LINES> {
    fn new() -> Self {
        Chains { head: [0; SLOTS], next: [0; LINES] }
    }

    /// Byte by byte, as the library compares; `==` of the slices would take several at once.
    fn has(&self, archive: &[u8], line: Line, slot: usize) -> bool {
        let bytes = &archive[line.start..line.end];
        let mut mark = self.head[slot] as usize;
        while mark != 0 {
            let start = mark - 1;
            let earlier = &archive[start..][..bytes.len()];
            if earlier.iter().zip(bytes).all(|(one, other)| one == other) {
                return true;
            }
            mark = self.next[start / SHORTEST_LINE] as usize;
        }
        false
    }

    fn add(&mut self, line: Line, slot: usize) {
        self.next[line.start / SHORTEST_LINE] = self.head[slot];
        self.head[slot] = (line.start + 1) as u16;
    }

    /// The refusal and the line that it concerns, if there is one. An archive has at most LINES lines.
    fn check(mut self, archive: &[u8]) -> Result<(), (u64, u64)> {
        let twin = each_run(archive, |run, line| {
            let slot = slot_of(&run, SLOTS);
            let found = self.has(archive, line, slot);
            self.add(line, slot);
            found.then_some(line.number)
        });
        twin?.map_or(Ok(()), |number| Err((DUPLICATE_LINE, number)))
    }
}

type ShortChains = Chains<SHORT_SLOTS, { SHORT_ARCHIVE / SHORTEST_LINE + 1 }>;
type LongChains = Chains<LONG_SLOTS, { ARCHIVE_LIMIT / SHORTEST_LINE + 1 }>;

/// The refusal and the line that it concerns, if there is one.
fn check(archive: &[u8]) -> Result<(), (u64, u64)> {
    if archive.len() > ARCHIVE_LIMIT {
        Err((ARCHIVE_TOO_LONG, 0))
    } else if archive.len() > SHORT_ARCHIVE {
        LongChains::new().check(archive)
    } else {
        ShortChains::new().check(archive)
    }
}

/// The whole archive is checked first, then its lines are counted.
#[inline(never)]
pub fn line(archive: &[u8], number: u64) -> Part {
    if check(archive).is_err() {
        return Part::default();
    }
    let (mut start, mut line_number) = (0, 1);
    while start < archive.len() {
        let rest = &archive[start..];
        let length = rest.iter().position(|&byte| byte == b'\n').map_or(rest.len(), |at| at + 1);
        if line_number == number {
            return Part { start: start as u64, length: length as u64 };
        }
        (start, line_number) = (start + length, line_number + 1);
    }
    Part::default()
}

/// The whole archive is checked first, then searched.
#[inline(never)]
pub fn lookup(archive: &[u8], number: u64) -> LookupReply {
    let found = check(archive).and_then(|()| each_run(archive, |run, line| place_in(run, line, number)));
    match found {
        Ok(place) => place.unwrap_or_default(),
        Err((refusal, line)) => LookupReply { refusal, line, ..LookupReply::default() },
    }
}

/// The whole archive is checked first, then read again for its counts, as far as their sum fits.
#[inline(never)]
pub fn summary(archive: &[u8]) -> SummaryReply {
    let (mut line_count, mut total) = (0, 0u64);
    let add = |run: Run, line: Line| {
        let (sum, overflows) = total.overflowing_add(run.count);
        (line_count, total) = (line.number, sum);
        overflows.then_some(TOTAL_OVERFLOW)
    };
    match check(archive).and_then(|()| each_run(archive, add)) {
        Ok(None) => SummaryReply { refusal: 0, line: 0, line_count, total },
        Ok(Some(refusal)) => SummaryReply { refusal, ..SummaryReply::default() },
        Err((refusal, line)) => SummaryReply { refusal, line, ..SummaryReply::default() },
    }
}

#[cfg(test)]
mod tests {
    use super::*;
    use crate::archives::ABOUT_TWINS;
    use crate::random::Random;
    use crate::{model, samples};

    fn agrees_on(r: &mut Random, g: Generator) {
        let (number, (from, to)) = (samples::number(r, g), samples::two_numbers(r, g));
        let (index, (places, low)) = (samples::index(r), samples::places_and_number(r, g));
        assert_eq!(element(g, index), model::element(g, index), "{index} in {g:?}");
        assert_eq!(orbit(g), model::orbit(g), "{g:?}");
        assert_eq!(self::index(g, number), model::index(g, number), "{number} in {g:?}");
        assert_eq!(
            index_places(g, places, low),
            model::index_places(g, places, low),
            "{places}, {low} in {g:?}"
        );
        assert_eq!(gap(g, from, to), model::gap(g, from, to), "{from}, {to} in {g:?}");
        assert_eq!(predecessor(g, number), model::predecessor(g, number), "{number} in {g:?}");
        let run = samples::run(r, g);
        assert_eq!(variety(run), model::variety(run), "{run:?}");
        let (position, mut ours, mut theirs) = (samples::position(r, run), [7; 9], [7; 9]);
        let replies = (remake(run, position, &mut ours), model::remake(run, position, &mut theirs));
        assert_eq!((replies.0, ours), (replies.1, theirs), "{position} in {run:?}");
    }

    #[test]
    fn same_method_agrees_with_the_model() {
        let mut r = Random::new(8);
        for make in [samples::generator, samples::prime_generator] {
            for _ in 0..20_000 {
                let g = make(&mut r);
                agrees_on(&mut r, g);
            }
        }
    }

    #[test]
    fn lookup_and_line_agree_with_the_model() {
        let mut r = Random::new(9);
        for _ in 0..1000 {
            let archive = samples::archive(&mut r, samples::mixed_run, 8);
            for (number, line_number) in archive.numbers.into_iter().zip(0..) {
                let (ours, theirs) = (lookup(&archive.bytes, number), model::lookup(&archive.bytes, number));
                assert_eq!(ours, theirs, "{number} in {}", archive.bytes.escape_ascii());
                let (ours, theirs) =
                    (line(&archive.bytes, line_number), model::line(&archive.bytes, line_number));
                assert_eq!(ours, theirs, "line {line_number} of {}", archive.bytes.escape_ascii());
            }
        }
    }

    /// The library's, as `chains/proofs/Examples.antt` has them: otherwise no lines would collide in its chains.
    #[test]
    fn slots_are_the_librarys() {
        let runs = [[4, 5, 3, 1, 0, 16], [10, 371, 995, 73, 100, 8]].map(Run::from);
        let slots: Vec<usize> =
            runs.iter().flat_map(|run| [64, 4096].map(|slots| slot_of(run, slots))).collect();
        assert_eq!(slots, [57, 3680, 59, 3816]);
    }

    #[test]
    fn check_agrees_with_the_model() {
        for archive in ABOUT_TWINS.iter().flat_map(|archives| archives()) {
            assert_eq!(summary(&archive), model::summary(&archive), "{}", archive.escape_ascii());
        }
    }

    #[test]
    fn summary_agrees_with_the_model() {
        let mut r = Random::new(10);
        for _ in 0..20_000 {
            let archive = samples::archive_to_sum(&mut r, samples::mixed_run);
            assert_eq!(summary(&archive), model::summary(&archive), "{}", archive.escape_ascii());
        }
    }
}
