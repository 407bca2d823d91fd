//! The lanes: the map of their steps by stepping from 0 and from 1, and their positions by listing those of the run,
//! or, of a long run, by its rounds.

use super::{element_of, kind, run_refusal, write_line, Kind};
use crate::calls::*;
use crate::trail::{low, step};

/// No run has more lanes.
const MOST: u64 = 16;

/// The positions of longer runs are not listed.
const LISTED: u64 = 200;

fn refusal(run: Run, lanes: u64, lane: u64) -> u64 {
    match run_refusal(run) {
        0 if kind(run.generator) == Kind::Prime => LANES_OUT_OF_RANGE,
        0 if !(1..=MOST.min(run.count)).contains(&lanes) => LANES_OUT_OF_RANGE,
        0 if !(0..lanes).contains(&lane) => LANES_OUT_OF_RANGE,
        refusal => refusal,
    }
}

fn stepped(g: Generator, x: u64, steps: u64) -> u64 {
    (0..steps).fold(x, |x, _| step(g, x))
}

/// The generator whose one step is so many of this one: they take 0 to the increment, and 1 further by the multiplier.
fn striding(g: Generator, steps: u64, seed: u64) -> Generator {
    let [increment, sum] = [0, 1].map(|x| stepped(g, x, steps));
    let multiplier = low(sum.wrapping_sub(increment).into(), g.width);
    Generator { width: g.width, multiplier, increment, seed }
}

/// How many of so many positions leave the lane if divided by the number of lanes.
fn listed(count: u64, lanes: u64, lane: u64) -> u64 {
    (0..count).filter(|position| position % lanes == lane).count() as u64
}

/// The same: one of each round of the lanes, and one of what is left behind the rounds, if that reaches the lane.
fn in_rounds(count: u64, lanes: u64, lane: u64) -> u64 {
    count / lanes + u64::from(lane < count % lanes)
}

pub fn lane(run: Run, lanes: u64, lane: u64) -> RunReply {
    let refusal = refusal(run, lanes, lane);
    if refusal != 0 {
        return refused(refusal);
    }
    let generator = striding(run.generator, lanes, element_of(run.generator, run.first + lane));
    let counted = if run.count <= LISTED { listed } else { in_rounds };
    accepted(Run { generator, first: 0, count: counted(run.count, lanes, lane) })
}

/// All lanes of a short run at a narrow width, by the definition alone: its numbers are stepped through and dealt to
/// the lanes in turn. None if it has not so many lanes.
pub fn dealt(run: Run, lanes: u64) -> Vec<Run> {
    if refusal(run, lanes, 0) != 0 {
        return Vec::new();
    }
    let mut hands = vec![Vec::new(); lanes as usize];
    let mut x = stepped(run.generator, run.generator.seed, run.first);
    for position in 0..run.count {
        hands[(position % lanes) as usize].push(x);
        x = step(run.generator, x);
    }
    let of_hand = |hand: &Vec<u64>| Run {
        generator: striding(run.generator, lanes, hand[0]),
        first: 0,
        count: hand.len() as u64,
    };
    hands.iter().map(of_hand).collect()
}

pub fn write_lane(run: Run, lanes: u64, lane: u64, buffer: &mut [u8]) -> Value {
    match self::lane(run, lanes, lane) {
        RunReply { refusal: 0, run } => write_line(run, buffer),
        RunReply { refusal, .. } => Value { refusal, value: 0 },
    }
}

#[cfg(test)]
mod tests {
    use super::*;
    use crate::model::remake;
    use crate::random::Random;
    use crate::samples;

    #[test]
    fn rounds_agree_with_the_list() {
        for count in 0..=2 * LISTED {
            for lanes in 1..=MOST {
                for lane in 0..lanes {
                    let counts = [listed(count, lanes, lane), in_rounds(count, lanes, lane)];
                    assert_eq!(counts[0], counts[1], "lane {lane} of {lanes} of {count} positions");
                }
            }
        }
    }

    /// The first position behind the lane is not on the run, and the one before it is.
    #[test]
    fn rounds_reach_the_end_of_long_runs() {
        let mut r = Random::new(17);
        for _ in 0..200_000 {
            let counts = [u64::MAX - r.below(40), r.word(), LISTED + 1 + r.any() / 2];
            let (count, lanes) = (r.pick(&counts), 1 + r.below(MOST));
            let lane = r.below(lanes);
            let behind = u128::from(lane) + u128::from(in_rounds(count, lanes, lane)) * u128::from(lanes);
            let ends = behind - u128::from(lanes)..behind;
            assert!(ends.contains(&(u128::from(count) - 1)), "lane {lane} of {lanes} of {count} positions");
        }
    }

    /// From any number, at any width.
    #[test]
    fn one_step_is_so_many() {
        let mut r = Random::new(18);
        for _ in 0..100_000 {
            let width = 1 + r.below(64);
            let (g, steps) = (samples::accepted_generator(&mut r, width), 1 + r.below(MOST));
            for x in [r.bits(width), 0, 1, u64::MAX >> (64 - width)] {
                let wanted = stepped(g, x, steps);
                assert_eq!(step(striding(g, steps, 0), x), wanted, "{steps} steps from {x} in {g:?}");
            }
        }
    }

    #[test]
    fn lane_agrees_with_the_dealing() {
        for k in 0..512 {
            let generator = Generator { width: 3, multiplier: k / 64, increment: k / 8 % 8, seed: k % 8 };
            for (first, count, lanes) in [(0, 1, 1), (1, 7, 3), (5, 17, 16), (2, 16, 16), (0, 15, 16)] {
                let run = Run { generator, first, count };
                let dealt = dealt(run, lanes);
                assert_eq!(dealt.len() as u64, if lanes <= count { lanes } else { 0 });
                for (number, dealt) in (0..).zip(dealt) {
                    assert_eq!(
                        lane(run, lanes, number),
                        accepted(dealt),
                        "lane {number} of {lanes} of {run:?}"
                    );
                }
            }
        }
    }

    /// The run shows 49, 742, 821, 434, 217, 606, 541 and 1002.
    #[test]
    fn worked_lanes() {
        let run = Run::from([10, 371, 995, 73, 100, 8]);
        let lanes: [&[u64]; 3] = [&[49, 434, 541], &[742, 217, 1002], &[821, 606]];
        for (number, shown) in (0..).zip(lanes) {
            let RunReply { refusal, run } = lane(run, 3, number);
            assert_eq!((refusal, run.first, run.count), (0, 0, shown.len() as u64));
            let mut values = [0; 4];
            let Value { value, .. } = remake(run, 0, &mut values);
            assert_eq!(&values[..value as usize], shown);
        }
        let mut buffer = [b'.'; 24];
        assert_eq!(write_lane(run, 3, 2, &mut buffer), Value { refusal: 0, value: 20 });
        assert_eq!(&buffer, b"10,1003,439,821,0,2\n....");
        let short = write_lane(run, 3, 2, &mut buffer[..19]);
        assert_eq!(short, Value { refusal: BUFFER_TOO_SHORT, value: 0 });
    }

    #[test]
    fn refusals_in_their_order() {
        let run = Run::from([10, 371, 995, 73, 100, 8]);
        let long = Run { count: 100, ..run };
        for (run, lanes, lane, wanted) in [
            (run, 8, 7, 0),
            (run, 8, 8, LANES_OUT_OF_RANGE),
            (run, 9, 0, LANES_OUT_OF_RANGE),
            (run, 0, 0, LANES_OUT_OF_RANGE),
            (run, 1, u64::MAX, LANES_OUT_OF_RANGE),
            (long, 16, 15, 0),
            (long, 17, 0, LANES_OUT_OF_RANGE),
            (long, u64::MAX, 0, LANES_OUT_OF_RANGE),
            (Run::from([0, 16807, 0, 1, 0, 8]), 1, 0, LANES_OUT_OF_RANGE),
            (Run::from([0, 16807, 0, 1, 0, 0]), 0, 0, RUN_OUT_OF_RANGE),
            (Run::from([0, 16807, 0, 0, 0, 0]), 0, 0, OPERAND_OUT_OF_RANGE),
            (Run::from([65, 16807, 0, 0, 0, 0]), 0, 0, WIDTH_OUT_OF_RANGE),
        ] {
            let reply = self::lane(run, lanes, lane);
            assert_eq!(reply.refusal, wanted, "lane {lane} of {lanes} of {run:?}");
            assert!(wanted == 0 || reply == refused(wanted), "{reply:?}");
            let wanted = if wanted == 0 { BUFFER_TOO_SHORT } else { wanted };
            assert_eq!(write_lane(run, lanes, lane, &mut []), Value { refusal: wanted, value: 0 });
        }
    }
}
