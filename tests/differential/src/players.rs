//! Records of a player and calls on them: random ones of every kind, and chosen ones to make all short lists of.

use crate::calls::*;
use crate::random::Random;
use crate::samples;

// Random ones.

/// Not set, and set by numbers of which single bits or none of the low ones are 1.
const SETS: [u64; 12] = [0, 0, 0, 0, 1, 1, 1, 2, 7, 1 << 32, 1 << 63, u64::MAX];

/// A mark above 3 whose low bits are one's number.
const ABOVE_MARKS: [u64; 4] = [1 << 8, 1 << 16, 1 << 32, 1 << 63];

/// A run, mostly accepted: of every kind, of few positions or about as many as there may be, or of any numbers.
fn run(r: &mut Random) -> Run {
    let make =
        r.pick(&[samples::generator, samples::generator, samples::generator, samples::prime_generator]);
    let generator = make(r);
    let run = samples::run(r, generator);
    match r.below(32) {
        0 => Run::from([r.any(), r.any(), r.any(), r.any(), r.any(), r.any()]),
        1..=12 => Run { count: 1 + r.below(8), ..run },
        13..=18 => Run { first: r.below(4), count: u64::MAX - r.below(8), ..run },
        _ => run,
    }
}

/// A position of a run of so many, often one of its first or last.
fn on_run(r: &mut Random, count: u64) -> u64 {
    let last = count.saturating_sub(1);
    let choices = [0, r.below(4).min(last), r.below(count.max(1)), last.saturating_sub(r.below(4)), last];
    r.pick(&choices)
}

/// A position behind such a run, often near its end, or by chance one of it.
fn behind_run(r: &mut Random, count: u64) -> u64 {
    let choices =
        [count, count, count.saturating_add(r.below(4)), count.wrapping_add(1 << 32), r.any(), u64::MAX];
    r.pick(&choices)
}

fn mark(r: &mut Random, count: u64) -> Mark {
    let set = if r.one_in(16) { r.any() } else { r.pick(&SETS) };
    let position = if r.one_in(3) { behind_run(r, count) } else { on_run(r, count) };
    Mark { set, position }
}

/// Mostly one that may be played: its run accepted, its position on it. Any marks.
pub fn record(r: &mut Random) -> Player {
    let run = run(r);
    let position = if r.one_in(8) { behind_run(r, run.count) } else { on_run(r, run.count) };
    Player { run, position, marks: std::array::from_fn(|_| mark(r, run.count)) }
}

/// Numbers of steps: few, about as many as lead to an end of the run, or many, of which some would lead to the
/// run if the sum wrapped.
fn steps(r: &mut Random, player: Player, to_the_end: u64) -> u64 {
    let about_the_end = to_the_end.wrapping_add(r.below(3)).wrapping_sub(1);
    let wrapped = player.position.wrapping_neg().wrapping_add(r.below(4));
    let few = [0, 1, 1, r.below(4)];
    let many = [wrapped, 1 << 63, u64::MAX, u64::MAX - r.below(4), player.run.count, r.any()];
    let choices = [r.pick(&few), r.pick(&few), about_the_end, r.below(to_the_end.max(1)), r.pick(&many)];
    r.pick(&choices)
}

fn mark_number(r: &mut Random) -> u64 {
    match r.below(8) {
        0 => 4 + r.below(2),
        1 => r.pick(&ABOVE_MARKS) + r.below(6),
        2 => r.pick(&[u64::MAX, u64::MAX - 3]),
        _ => r.below(4),
    }
}

/// A call on this record.
pub fn call(r: &mut Random, player: Player) -> PlayerCall {
    let last = player.run.count.wrapping_sub(1);
    match r.below(16) {
        0 => PlayerCall::Open(run(r)),
        1..=4 => PlayerCall::Forward(steps(r, player, last.wrapping_sub(player.position))),
        5..=7 => PlayerCall::Back(steps(r, player, player.position)),
        8..=10 => PlayerCall::Mark(mark_number(r)),
        11..=13 => PlayerCall::Return(mark_number(r)),
        _ => PlayerCall::Show,
    }
}

/// A record and the call that begins a list: an opening, mostly so of a zeroed record, or any.
pub fn beginning(r: &mut Random) -> (Player, PlayerCall) {
    let zeroed = r.one_in(4);
    let player = if zeroed { Player::default() } else { record(r) };
    let opens = if zeroed { !r.one_in(16) } else { r.one_in(2) };
    (player, if opens { PlayerCall::Open(run(r)) } else { call(r, player) })
}

// Chosen ones.

/// Four positions, which show 49, 742, 821 and 434.
const SHORT_RUN: [u64; 6] = [10, 371, 995, 73, 100, 4];

/// Calls of which all short lists are tried.
pub fn chosen_calls() -> Vec<PlayerCall> {
    let run = Run::from(SHORT_RUN);
    let mut calls = vec![PlayerCall::Open(run), PlayerCall::Open(Run { count: 0, ..run }), PlayerCall::Show];
    calls.extend([0, 1, 3, u64::MAX].map(PlayerCall::Forward));
    calls.extend([1, 3].map(PlayerCall::Back));
    calls.extend([0, 3, 4].map(PlayerCall::Mark));
    calls.extend([0, 3, 4].map(PlayerCall::Return));
    calls
}

/// Records on which these lists begin: zeroed; just opened; with marks behind the run, set and unset, and others set
/// by odd numbers, on a run and at the last position of an even multiplier's; with the position behind the run; with a
/// refused run.
pub fn chosen_records() -> [Player; 6] {
    let run = Run::from(SHORT_RUN);
    let even = Run::from([4, 2, 0, 1, 0, 4]);
    let [behind, unset, high, low] =
        [(7, 4), (0, 9), (1 << 63, 2), (2, 0)].map(|(set, position)| Mark { set, position });
    let marks = [behind, unset, low, high];
    [
        Player::default(),
        Player { run, ..Player::default() },
        Player { run, position: 1, marks: [high, low, behind, unset] },
        Player { run: even, position: 3, marks },
        Player { run, position: 4, marks: [low, high, behind, unset] },
        Player { run: Run { first: u64::MAX, ..run }, position: 1, marks },
    ]
}

#[cfg(test)]
mod tests {
    use super::*;
    use crate::model;

    /// A call on a record.
    #[derive(Clone, Copy)]
    struct Case {
        player: Player,
        call: PlayerCall,
    }

    impl Case {
        fn count(self) -> i128 {
            self.player.run.count.into()
        }

        fn steps(self) -> Option<u64> {
            match self.call {
                PlayerCall::Forward(steps) | PlayerCall::Back(steps) => Some(steps),
                _ => None,
            }
        }

        /// Where a move of a step or more would lead.
        fn goal(self) -> Option<i128> {
            let position = i128::from(self.player.position);
            match self.call {
                PlayerCall::Forward(steps) if steps > 0 => Some(position + i128::from(steps)),
                PlayerCall::Back(steps) if steps > 0 => Some(position - i128::from(steps)),
                _ => None,
            }
        }

        fn number(self) -> Option<u64> {
            match self.call {
                PlayerCall::Mark(number) | PlayerCall::Return(number) => Some(number),
                _ => None,
            }
        }

        /// The mark that is returned to.
        fn mark(self) -> Option<Mark> {
            let PlayerCall::Return(number) = self.call else { return None };
            self.player.marks.get(number as usize).copied()
        }

        fn is_show_of_even(self) -> bool {
            matches!(self.call, PlayerCall::Show) && self.player.run.generator.multiplier.is_multiple_of(2)
        }
    }

    fn wraps_to_the_run(case: Case) -> bool {
        case.goal().is_some_and(|goal| (1 << 64..(1 << 64) + case.count()).contains(&goal))
    }

    fn above_marks(number: u64) -> bool {
        number > 255 && number % 256 < 4
    }

    fn by_high_bits(mark: Mark) -> bool {
        mark.set != 0 && mark.set as u32 == 0
    }

    /// A name, which calls are meant, and the refusals that they have; others come of a record that is refused before.
    type Sort = (&'static str, fn(Case) -> bool, &'static [u64]);

    /// What the random calls are meant for.
    const WANTED: [Sort; 14] = [
        ("no steps", |case| case.steps() == Some(0), &[0]),
        ("2^63 steps", |case| case.steps() == Some(1 << 63), &[0, POSITION_OUT_OF_RANGE]),
        ("2^64 - 1 steps", |case| case.steps() == Some(u64::MAX), &[POSITION_OUT_OF_RANGE]),
        ("steps that wrap to the run", wraps_to_the_run, &[POSITION_OUT_OF_RANGE]),
        ("to the last position", |case| case.goal() == Some(case.count() - 1), &[0]),
        ("to the count", |case| case.goal() == Some(case.count()), &[POSITION_OUT_OF_RANGE]),
        ("to position 0", |case| case.goal() == Some(0), &[0]),
        ("to position -1", |case| case.goal() == Some(-1), &[POSITION_OUT_OF_RANGE]),
        ("mark 4", |case| case.number() == Some(4), &[BOOKMARK_INVALID]),
        ("low bits of a mark", |case| case.number().is_some_and(above_marks), &[BOOKMARK_INVALID]),
        (
            "an unset mark behind the run",
            |case| case.mark().is_some_and(|mark| mark.set == 0 && case.count() <= mark.position.into()),
            &[BOOKMARK_INVALID],
        ),
        (
            "a mark at the count",
            |case| case.mark().is_some_and(|mark| case.count() == mark.position.into()),
            &[BOOKMARK_INVALID, POSITION_OUT_OF_RANGE],
        ),
        (
            "a mark set by high bits",
            |case| case.mark().is_some_and(by_high_bits),
            &[0, POSITION_OUT_OF_RANGE],
        ),
        ("an even multiplier", Case::is_show_of_even, &[0]),
    ];

    /// Each of them comes up, with each of its refusals.
    #[test]
    fn random_calls_are_of_every_kind() {
        let mut r = Random::new(12);
        let mut met = WANTED.map(|(_, _, refusals)| vec![0; refusals.len()]);
        for _ in 0..200_000 {
            let mut player = record(&mut r);
            let case = Case { player, call: call(&mut r, player) };
            let refusal = model::player::played(&mut player, case.call).refusal;
            for ((_, wanted, refusals), met) in WANTED.iter().zip(&mut met) {
                if let Some(at) = refusals.iter().position(|&of| of == refusal && wanted(case)) {
                    met[at] += 1;
                }
            }
        }
        for ((name, _, _), met) in WANTED.iter().zip(met) {
            assert!(met.iter().all(|&times| times >= 200), "{name}: {met:?}");
        }
    }

    #[test]
    fn chosen_records_are_accepted_and_refused() {
        let shown = chosen_records().map(|mut player| model::player::played(&mut player, PlayerCall::Show));
        let replies = shown.map(|Value { refusal, value }| (refusal, value));
        assert_eq!(replies, [(4, 0), (0, 49), (0, 742), (0, 8), (12, 0), (5, 0)]);
    }
}
