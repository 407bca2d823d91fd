//! The lanes: one jump to the first number, and one for the map of as many steps as there are lanes.

use super::{element_of, mask, run_refusal, steps, write_line, Map};
use crate::calls::*;

fn lane_refusal(run: Run, lanes: u64, lane: u64) -> u64 {
    let refusal = run_refusal(run);
    if refusal != 0 {
        refusal
    } else if run.generator.width == 0 || lanes <= lane || lanes > 16 || lanes > run.count {
        LANES_OUT_OF_RANGE
    } else {
        0
    }
}

fn lane_of(run: Run, lanes: u64, lane: u64) -> Run {
    let (g, top) = (run.generator, mask(run.generator.width));
    let seed = element_of(g, run.first + lane);
    let map = steps(Map::step(g), lanes);
    let generator =
        Generator { width: g.width, multiplier: map.factor & top, increment: map.summand & top, seed };
    Run { generator, first: 0, count: (run.count - 1 - lane) / lanes + 1 }
}

#[inline(never)]
pub fn lane(run: Run, lanes: u64, lane: u64) -> RunReply {
    match lane_refusal(run, lanes, lane) {
        0 => accepted(lane_of(run, lanes, lane)),
        refusal => refused(refusal),
    }
}

#[inline(never)]
pub fn write_lane(run: Run, lanes: u64, lane: u64, buffer: &mut [u8]) -> Value {
    match lane_refusal(run, lanes, lane) {
        0 => write_line(lane_of(run, lanes, lane), buffer),
        refusal => Value { refusal, value: 0 },
    }
}

#[cfg(test)]
mod tests {
    use super::*;
    use crate::lanes::{self, Call};
    use crate::model;
    use crate::random::Random;

    #[test]
    fn lane_agrees_with_the_model() {
        let mut r = Random::new(20);
        for _ in 0..200_000 {
            let call = lanes::call(&mut r);
            let Call { run, lanes, lane } = call;
            assert_eq!(self::lane(run, lanes, lane), model::lane::lane(run, lanes, lane), "{call:?}");
            let length = r.below(128) as usize;
            let (mut ours, mut theirs) = ([7; 128], [7; 128]);
            let replies = (
                write_lane(run, lanes, lane, &mut ours[..length]),
                model::lane::write_lane(run, lanes, lane, &mut theirs[..length]),
            );
            assert_eq!((replies.0, ours), (replies.1, theirs), "{length} bytes for {call:?}");
        }
    }
}
