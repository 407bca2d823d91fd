//! The fixes: one jump to the first number, one step to the second, and each divided by a power of two.

use super::{element_of, mask, run_refusal, Map};
use crate::calls::*;

fn fix_refusal(run: Run, fix: u64) -> u64 {
    let refusal = run_refusal(run);
    if refusal != 0 {
        refusal
    } else if run.generator.width == 0 {
        INEXACT
    } else if run.count / 2 <= fix {
        POSITION_OUT_OF_RANGE
    } else {
        0
    }
}

fn deviate(width: u64, number: u64) -> f64 {
    let places = if width < 53 { width } else { 53 };
    (number >> (width - places)) as f64 / (1u64 << places) as f64 - 0.5
}

#[inline(never)]
pub fn fix_at(run: Run, fix: u64) -> FixReply {
    let refusal = fix_refusal(run, fix);
    if refusal != 0 {
        return FixReply { refusal, ..FixReply::default() };
    }
    let g = run.generator;
    let east = element_of(g, run.first + 2 * fix);
    let north = Map::step(g).apply(east) & mask(g.width);
    FixReply { refusal: 0, fix: Fix { east: deviate(g.width, east), north: deviate(g.width, north) } }
}

#[cfg(test)]
mod tests {
    use super::*;
    use crate::random::Random;
    use crate::{fixes, model};

    #[test]
    fn fix_agrees_with_the_model() {
        let mut r = Random::new(14);
        for _ in 0..200_000 {
            let (run, fix) = fixes::call(&mut r);
            assert_eq!(FixBits::from(fix_at(run, fix)), model::fix::fix_at(run, fix), "{fix} of {run:?}");
        }
    }
}
