//! Chosen archives: with given counts, with bad lines, and for the refusal of a line that equals an earlier
//! one, its twin: twins at every place and beside other refusals, lines that are almost equal, and different
//! lines that the library's chains keep together.

use crate::calls::*;
use crate::random::Random;
use crate::same_method::{slot_of, slots_for, HASH_FACTOR};
use crate::samples;

const MAX: u64 = u64::MAX;

type Lines = Vec<Vec<u8>>;

/// Of refusals 2 to 5.
pub const BAD_LINES: [&[u8]; 5] =
    [b"4,5,3,1,0\n", b"65,5,3,1,0,16\n", b"4,16,3,1,0,16\n", b"0,16807,0,0,0,16\n", b"4,5,3,1,0,0\n"];

/// Different lines, of even multipliers and of width 0 too, with these counts. The first shows 1.
pub fn lines_with(counts: &[u64]) -> Lines {
    let kinds = [[64, 5, 3], [64, 6, 1], [0, 16_807, 0]].into_iter().cycle();
    let runs = counts.iter().zip(1..).zip(kinds).map(|((&count, seed), [width, multiplier, increment])| {
        Run::from([width, multiplier, increment, seed, 0, count])
    });
    runs.map(|run| line_of(&run)).collect()
}

/// All that are about twins.
pub const ABOUT_TWINS: [fn() -> Vec<Vec<u8>>; 9] = [
    twins_at_each_place,
    bad_lines_about_twins,
    twins_about_sums,
    twins_in_each_order,
    near_twins,
    colliding_lines,
    about_1024_bytes,
    twins_in_full_archives,
    twins_in_a_full_slot,
];

/// The lines with one more at this place.
pub fn with_line(lines: &[Vec<u8>], place: usize, line: &[u8]) -> Lines {
    let mut lines = lines.to_vec();
    lines.insert(place, line.to_vec());
    lines
}

/// The lines, and with one of them once more at each later place.
fn with_each_twin(lines: &[Vec<u8>]) -> Vec<Lines> {
    let mut all = vec![lines.to_vec()];
    for later in 1..=lines.len() {
        all.extend(lines[..later].iter().map(|line| with_line(lines, later, line)));
    }
    all
}

fn archives_of(all: &[Lines]) -> Vec<Vec<u8>> {
    all.iter().map(|lines| lines.concat()).collect()
}

fn twins_at_each_place() -> Vec<Vec<u8>> {
    archives_of(&with_each_twin(&lines_with(&[16, 8, 5, 9, 3, 2, 7, 1, 40, 6, 4, 11])))
}

/// Each bad line at each place of archives with a twin and without.
fn bad_lines_about_twins() -> Vec<Vec<u8>> {
    let mut all = Vec::new();
    for lines in with_each_twin(&lines_with(&[16, 8, 5, 9])) {
        for bad in BAD_LINES {
            all.extend((0..=lines.len()).map(|place| with_line(&lines, place, bad)));
        }
    }
    all.extend(BAD_LINES.map(|bad| vec![bad.to_vec(), bad.to_vec()]));
    archives_of(&all)
}

/// Beside sums that are too large without the twin, that are so with it, and then small modulo 2^64.
fn twins_about_sums() -> Vec<Vec<u8>> {
    let sums = [[MAX, MAX, 1], [1, MAX, MAX], [1 << 63, 1, 2], [MAX, 1, 2], [1 << 62, 1 << 63, 1 << 62]];
    archives_of(&sums.iter().flat_map(|counts| with_each_twin(&lines_with(counts))).collect::<Vec<_>>())
}

/// Up to four of these lines, which begin alike, in every order and as often as there is room; whole, and
/// without the last byte.
fn twins_in_each_order() -> Vec<Vec<u8>> {
    let lines: [&[u8]; 4] = [b"4,5,3,1,0,1\n", b"4,5,3,1,0,16\n", b"4,5,3,1,0,17\n", b"4,5,3,1,0,160\n"];
    let mut all = vec![Vec::new()];
    let mut begun = 0;
    for _ in 0..4 {
        let longer: Vec<Vec<u8>> =
            all[begun..].iter().flat_map(|archive| lines.map(|line| [archive, line].concat())).collect();
        begun = all.len();
        all.extend(longer);
    }
    let cut: Vec<Vec<u8>> = all[1..].iter().map(|archive| archive[..archive.len() - 1].to_vec()).collect();
    [all, cut].concat()
}

/// A line and the same with one byte changed to any, or not: in both orders, and with either once more.
fn near_twins() -> Vec<Vec<u8>> {
    let line = b"10,371,345,1,0,18\n";
    let mut all = Vec::new();
    for at in 0..line.len() {
        for byte in 0..=u8::MAX {
            let mut changed = *line;
            changed[at] = byte;
            all.extend([[*line, changed].concat(), [changed, *line].concat()]);
            all.extend([[*line, changed, *line].concat(), [*line, changed, changed].concat()]);
        }
    }
    all
}

// Lines that are kept together.

/// Runs that differ from this one in a larger count only, and whose hash falls into its slot.
pub fn runs_in_one_slot(run: Run, slots: usize) -> impl Iterator<Item = Run> {
    let runs = (run.count..).map(move |count| Run { count, ..run });
    runs.filter(move |other| slot_of(other, slots) == slot_of(&run, slots))
}

/// Runs of one hash: what the increment adds to it, the seed takes from it.
fn runs_of_one_hash() -> impl Iterator<Item = Run> {
    (0..).map(|increment: u64| {
        let seed = 1u64.wrapping_sub(HASH_FACTOR.wrapping_mul(increment));
        Run::from([64, 5, increment, seed, 0, 9])
    })
}

/// Pairs of lines of one slot of which one is the other, up to its byte 10, and a digit more.
fn beginnings_in_one_slot(slots: usize) -> impl Iterator<Item = [Vec<u8>; 2]> {
    let run = |count| Run::from([9, 5, 3, 1, 0, count]);
    let pairs = (10..).map(move |count| [run(count / 10), run(count)]);
    let in_one_slot = pairs.filter(move |[run, longer]| slot_of(run, slots) == slot_of(longer, slots));
    in_one_slot.map(|pair| pair.map(|run| line_of(&run)))
}

/// The first runs' lines, as many as fit this length.
pub fn fitting(runs: impl Iterator<Item = Run>, length: usize) -> Lines {
    let mut size = 0;
    let lines = runs.map(|run| line_of(&run));
    lines
        .take_while(|line| {
            size += line.len();
            size <= length
        })
        .collect()
}

/// Lines of one slot, of two in turn, and of one hash, each with every twin; behind others, lines of one slot
/// that begin alike, in both orders: for few slots and for many.
fn colliding_lines() -> Vec<Vec<u8>> {
    let (one, other) = (Run::from([9, 5, 3, 1, 0, 1]), Run::from([10, 371, 345, 1, 0, 18]));
    let mut all = Vec::new();
    for length in [980, 1400] {
        let slots = slots_for(length);
        let [in_one, in_other] = [one, other].map(|run| runs_in_one_slot(run, slots));
        let in_turn = in_one.zip(in_other).flat_map(|(one, other)| [one, other]);
        all.extend(with_each_twin(&fitting(runs_in_one_slot(one, slots), length)));
        all.extend(with_each_twin(&fitting(in_turn, length)));
        all.extend(with_each_twin(&fitting(runs_of_one_hash(), length)));
        let others = &full_lines()[..length / 16];
        for [line, longer] in beginnings_in_one_slot(slots).take(40) {
            all.extend([[line.clone(), longer.clone()], [longer, line]].map(|pair| [others, &pair].concat()));
        }
    }
    archives_of(&all)
}

// Lengths.

/// Archives of each length about that from which on there are more slots: different lines, and with the
/// first once more as the second and as the last.
fn about_1024_bytes() -> Vec<Vec<u8>> {
    let mut r = Random::new(6);
    let line = b"4,5,3,1,0,16\n".to_vec();
    let mut all = Vec::new();
    for length in 1010..=1040 {
        let mut others = |lines: usize| {
            samples::archive_of_length(&mut r, samples::small_run, length - lines * line.len(), 0).bytes
        };
        all.push([line.clone(), others(1)].concat());
        all.push([line.clone(), line.clone(), others(2)].concat());
        all.push([line.clone(), others(2), line.clone()].concat());
    }
    all
}

/// 5,460 different lines, 65,536 bytes together. Those from the ninth on have 12 bytes, but for the last.
fn full_lines() -> Lines {
    let digits = |k: u64| [4 + k % 2, k / 2 % 10, k / 20 % 10, k / 200 % 10, k / 2000];
    let count = |k: u64| if k < 8 { 10 } else { 1 + k % 9 };
    let run = |k: u64| {
        let [width, multiplier, increment, seed, first] = digits(k);
        Run::from([width, multiplier, increment, seed, first, count(k)])
    };
    let last = Run::from([10, 371, 995, 73, 100, 8]);
    (0..5459).map(run).chain([last]).map(|run| line_of(&run)).collect()
}

/// The lines with this one in place of another.
fn with_replaced(lines: &[Vec<u8>], place: usize, line: &[u8]) -> Lines {
    let mut lines = lines.to_vec();
    lines[place] = line.to_vec();
    lines
}

/// Full archives, and with a line in place of a later one: next to each other and far apart, the first as the
/// last; with a bad line before, between and behind them; with a byte more, which is mostly too many.
fn twins_in_full_archives() -> Vec<Vec<u8>> {
    let lines = full_lines();
    let mut all = vec![lines.clone()];
    for (earlier, later) in [(0, 1), (0, 5459), (8, 9), (8, 5458), (2700, 2701), (1000, 4000), (5457, 5458)] {
        let twins = with_replaced(&lines, later, &lines[earlier]);
        all.extend([3, 2000, 5000].map(|place| with_replaced(&twins, place, b"4,5\n")));
        all.push(with_line(&twins, lines.len(), b"\n"));
        all.push(twins);
    }
    archives_of(&all)
}

/// The lines of a full archive, all in one slot and alike up to the count.
pub fn full_slot() -> Lines {
    let run = Run::from([4, 5, 3, 1, 0, 10_000_000]);
    fitting(runs_in_one_slot(run, slots_for(ARCHIVE_LIMIT)), ARCHIVE_LIMIT)
}

/// They by themselves, and with the first, a middle one and the last but one once more as the last.
fn twins_in_a_full_slot() -> Vec<Vec<u8>> {
    let lines = full_slot();
    let last = lines.len() - 1;
    let twins = [0, last / 2, last - 1].map(|earlier| with_replaced(&lines, last, &lines[earlier]));
    [archives_of(&[lines]), archives_of(&twins)].concat()
}

#[cfg(test)]
mod tests {
    use super::*;
    use crate::model;
    use std::collections::HashSet;

    fn refusals(archives: &[Vec<u8>]) -> HashSet<u64> {
        archives.iter().map(|archive| model::lookup(archive, 1).refusal).collect()
    }

    /// Each kind of archive is what it is meant for.
    #[test]
    fn archives_are_refused_and_accepted() {
        let with_twins =
            [twins_at_each_place, twins_about_sums, colliding_lines, about_1024_bytes, twins_in_a_full_slot];
        for archives in with_twins {
            assert_eq!(refusals(&archives()), HashSet::from([0, DUPLICATE_LINE]));
        }
        for archives in [twins_in_each_order, near_twins] {
            assert!(refusals(&archives()).is_superset(&HashSet::from([0, MALFORMED_LINE, DUPLICATE_LINE])));
        }
        assert_eq!(refusals(&bad_lines_about_twins()), HashSet::from([2, 3, 4, 5, DUPLICATE_LINE]));
        assert_eq!(refusals(&twins_in_full_archives()), HashSet::from([0, 1, 2, DUPLICATE_LINE]));
        let of_sums: HashSet<u64> =
            twins_about_sums().iter().map(|archive| model::summary(archive).refusal).collect();
        assert_eq!(of_sums, HashSet::from([0, TOTAL_OVERFLOW, DUPLICATE_LINE]));
    }

    #[test]
    fn full_archives_are_full() {
        assert_eq!(full_lines().concat().len(), ARCHIVE_LIMIT);
        let left = ARCHIVE_LIMIT - full_slot().concat().len();
        assert!(left < full_slot()[0].len(), "{left} bytes left");
    }
}
