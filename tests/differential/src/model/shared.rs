//! The numbers that two runs share: of short runs and at narrow widths by the sets of what they show, otherwise by the
//! two stretches that they cover of one circle.

use std::collections::HashSet;

use super::{element_of, index_of, is_odd, kind, orbit, run_refusal, Kind, STEPPED_WIDTH};
use crate::calls::*;
use crate::prime;
use crate::trail::step;

/// The numbers of longer runs are not listed, unless the width has no more of them.
const LISTED: u64 = 1 << STEPPED_WIDTH;

fn refusal(first: Run, second: Run) -> u64 {
    let fixed = |Generator { width, multiplier, increment, .. }| (width, multiplier, increment);
    match (run_refusal(first), run_refusal(second)) {
        (0, 0) if fixed(first.generator) != fixed(second.generator) => INCOMPATIBLE,
        (0, 0) if !is_odd(first.generator.multiplier) => INCOMPATIBLE,
        (0, refusal) | (refusal, _) => refusal,
    }
}

// By sets.

fn is_listed(run: Run) -> bool {
    run.count <= LISTED || (1..=STEPPED_WIDTH).contains(&run.generator.width)
}

fn next(g: Generator, x: u64) -> u64 {
    match kind(g) {
        Kind::Prime => x * prime::MULTIPLIER % prime::MODULUS,
        Kind::Linear => step(g, x),
    }
}

/// The numbers at the first positions, as many as are listed.
fn numbers(run: Run) -> HashSet<u64> {
    let first = element_of(run.generator, run.first);
    let shown = std::iter::successors(Some(first), |&x| Some(next(run.generator, x)));
    shown.take(run.count.min(LISTED) as usize).collect()
}

fn by_sets(first: Run, second: Run) -> u64 {
    let [first, second] = [first, second].map(numbers);
    first.intersection(&second).count() as u64
}

// On the circle, which has a place for each number of the period, and place 0 where the first run begins.

/// The first run covers `lengths[0]` places from place 0 on, the second `lengths[1]` from `start` on, each at most the
/// whole circle. Unrolled, the second lies there and one turn before, and nowhere else meets the first.
fn common_places(period: i128, lengths: [i128; 2], start: i128) -> i128 {
    let meeting = |start: i128| (lengths[0].min(start + lengths[1]) - start.max(0)).max(0);
    meeting(start) + meeting(start - period)
}

/// The second run begins where its first number is found from the first run's first number on; if it is not, the runs
/// are on different circles.
fn by_places(first: Run, second: Run) -> u64 {
    let [begin, sought] = [first, second].map(|run| element_of(run.generator, run.first));
    let Some(start) = index_of(Generator { seed: begin, ..first.generator }, sought) else { return 0 };
    let period = period_of(orbit(first.generator)) as i128;
    let lengths = [first, second].map(|run| i128::from(run.count).min(period));
    common_places(period, lengths, start.into()) as u64
}

pub fn shared(first: Run, second: Run) -> Value {
    let refusal = refusal(first, second);
    if refusal != 0 {
        return Value { refusal, value: 0 };
    }
    let counted = if is_listed(first) && is_listed(second) { by_sets } else { by_places };
    Value { refusal: 0, value: counted(first, second) }
}

/// The numbers that the runs of 0, 1, 2, .. positions from an index on show, each number of up to 3 bits as one bit, by
/// the definition alone: the elements are stepped through.
pub fn masks_by_stepping(g: Generator, first: u64, longest: u64) -> Vec<u8> {
    let mut x = (0..first).fold(g.seed, |x, _| step(g, x));
    let mut masks = vec![0];
    let mut mask = 0;
    for _ in 0..longest {
        mask |= 1 << x;
        masks.push(mask);
        x = step(g, x);
    }
    masks
}

#[cfg(test)]
mod tests {
    use super::*;
    use crate::model::variety;
    use crate::pairs::{self, Pair};
    use crate::random::Random;

    /// Every place of every circle of up to 12 places, marked one by one.
    #[test]
    fn common_places_agree_with_marking() {
        for period in 1..=12 {
            let marked = |start: i128, length: i128| -> HashSet<i128> {
                (start..start + length).map(|place| place % period).collect()
            };
            for (l, m) in (1..=period).flat_map(|l| (1..=period).map(move |m| (l, m))) {
                for start in 0..period {
                    let common = marked(0, l).intersection(&marked(start, m)).count() as i128;
                    assert_eq!(
                        common_places(period, [l, m], start),
                        common,
                        "{l}, {m} from {start} of {period}"
                    );
                }
            }
        }
    }

    /// Of runs of which one set has all the numbers, at every width: short ones, and those of a short period.
    #[test]
    fn places_agree_with_sets() {
        let mut r = Random::new(21);
        let mut by_width = [0; 65];
        for _ in 0..200_000 {
            let Pair { first, second } = pairs::pair(&mut r);
            if refusal(first, second) != 0 {
                continue;
            }
            let period = period_of(orbit(first.generator));
            let few = |run: Run| period.min(run.count.into()) <= LISTED.into();
            if few(first) && few(second) {
                by_width[first.generator.width as usize] += 1;
                let [sets, places] = [by_sets, by_places].map(|by| by(first, second));
                assert_eq!(places, sets, "{first:?}, {second:?}");
            }
        }
        assert!(by_width.iter().all(|&times| times >= 100), "{by_width:?}");
    }

    #[test]
    fn sets_agree_with_masks() {
        for at in 0..2048 {
            let [multiplier, increment, seed, other] = [at / 512 * 2 + 1, at / 64 % 8, at / 8 % 8, at % 8];
            let one = Generator { width: 3, multiplier, increment, seed };
            for (first, second) in [(0, 0), (3, 1), (9, 5)] {
                let ours = masks_by_stepping(one, first, 9);
                let theirs = masks_by_stepping(Generator { seed: other, ..one }, second, 9);
                for (l, m) in (1..=9).flat_map(|l| (1..=9).map(move |m| (l, m))) {
                    let common = (ours[l] & theirs[m]).count_ones();
                    let a = Run { generator: one, first, count: l as u64 };
                    let b =
                        Run { generator: Generator { seed: other, ..one }, first: second, count: m as u64 };
                    assert_eq!(shared(a, b), Value { refusal: 0, value: common.into() }, "{a:?}, {b:?}");
                }
            }
        }
    }

    /// Neither run is first in what they share, and of a run with itself that is its variety.
    #[test]
    fn shared_agrees_with_its_swap_and_with_variety() {
        let mut r = Random::new(22);
        for _ in 0..100_000 {
            let Pair { first, second } = pairs::pair(&mut r);
            let reply = shared(first, second);
            if reply.refusal == 0 {
                assert_eq!(shared(second, first), reply, "{first:?}, {second:?}");
                assert_eq!(shared(first, first), variety(first), "{first:?}");
            }
        }
    }

    /// The first shows 49, 742, 821, 434, 217, 606, 541 and 1002; the numbers come again after 512.
    #[test]
    fn worked_pairs() {
        let run = Run::from([10, 371, 995, 73, 100, 8]);
        for (other, wanted) in [
            ([10, 371, 995, 73, 100, 8], 8),
            ([10, 371, 995, 73, 106, 8], 2),
            ([10, 371, 995, 217, 0, 8], 4),
            ([10, 371, 995, 73, 107, 8], 1),
            ([10, 371, 995, 73, 108, 8], 0),
            ([10, 371, 995, 1002, 0, 505], 1),
            ([10, 371, 995, 1002, 0, 506], 2),
            ([10, 371, 995, 73, 0, u64::MAX], 8),
            ([10, 371, 995, 0, 0, u64::MAX], 0),
        ] {
            let reply = shared(run, Run::from(other));
            assert_eq!(reply, Value { refusal: 0, value: wanted }, "{other:?}");
        }
        let [first, second] = [[64, 1, 1, 0, 0, u64::MAX], [64, 1, 1, 7, 0, u64::MAX]].map(Run::from);
        assert_eq!(shared(first, second), Value { refusal: 0, value: u64::MAX - 1 });
        let [first, second] =
            [[0, 16_807, 0, 1, 0, 1 << 40], [0, 16_807, 0, 1, 1 << 50, 1 << 60]].map(Run::from);
        assert_eq!(shared(first, second), Value { refusal: 0, value: prime::PERIOD });
    }

    /// Of each pair: what refuses the first by itself, then the second; then unless both are of one odd model.
    #[test]
    fn refusals_in_their_order() {
        const RUNS: [(u64, char, [u64; 6]); 9] = [
            (0, 'a', [10, 371, 995, 73, 100, 8]),
            (0, 'a', [10, 371, 995, 5, 0, u64::MAX]),
            (0, 'b', [11, 371, 995, 73, 100, 8]),
            (0, 'c', [10, 375, 995, 73, 100, 8]),
            (0, 'd', [10, 371, 994, 73, 100, 8]),
            (0, 'e', [10, 370, 995, 73, 100, 8]),
            (RUN_OUT_OF_RANGE, 'a', [10, 371, 995, 73, 100, 0]),
            (OPERAND_OUT_OF_RANGE, 'a', [10, 371, 995, 1024, 100, 0]),
            (WIDTH_OUT_OF_RANGE, 'f', [65, 371, 995, 1024, 100, 0]),
        ];
        for (one, one_model, first) in RUNS {
            for (other, other_model, second) in RUNS {
                let reply = shared(Run::from(first), Run::from(second));
                let wanted = match (one, other) {
                    (0, 0) if one_model != other_model || one_model == 'e' => INCOMPATIBLE,
                    (0, refusal) | (refusal, _) => refusal,
                };
                assert_eq!(reply.refusal, wanted, "{first:?}, {second:?}");
                assert!(wanted == 0 || reply.value == 0, "{reply:?}");
            }
        }
    }
}
