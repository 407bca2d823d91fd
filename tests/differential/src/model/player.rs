//! The player: what a call does is found first, or its refusal, and only then is anything written.

use super::{element_of, run_refusal};
use crate::calls::*;

/// What an accepted call does.
enum Effect {
    Opens(Run),
    MovesTo(u64),
    Marks(usize),
    Shows(u64),
}

fn accepted(run: Run) -> Result<Run, u64> {
    match run_refusal(run) {
        0 => Ok(run),
        refusal => Err(refusal),
    }
}

/// The position, which may be any number, as one of the run.
fn on_run(run: Run, position: i128) -> Result<u64, u64> {
    if (0..run.count.into()).contains(&position) {
        Ok(position as u64)
    } else {
        Err(POSITION_OUT_OF_RANGE)
    }
}

fn place_of(mark: u64) -> Result<usize, u64> {
    (0..4).find(|&place| place as u64 == mark).ok_or(BOOKMARK_INVALID)
}

/// Where the marks are that are set.
fn positions_of(marks: [Mark; 4]) -> [Option<u64>; 4] {
    marks.map(|mark| if mark.set == 0 { None } else { Some(mark.position) })
}

fn effect(player: Player, call: PlayerCall) -> Result<Effect, u64> {
    if let PlayerCall::Open(run) = call {
        return accepted(run).map(Effect::Opens);
    }
    let run = accepted(player.run)?;
    let held = on_run(run, player.position.into())?;
    let position = i128::from(held);
    match call {
        PlayerCall::Open(run) => Ok(Effect::Opens(run)),
        PlayerCall::Forward(steps) => on_run(run, position + i128::from(steps)).map(Effect::MovesTo),
        PlayerCall::Back(steps) => on_run(run, position - i128::from(steps)).map(Effect::MovesTo),
        PlayerCall::Mark(mark) => place_of(mark).map(Effect::Marks),
        PlayerCall::Return(mark) => {
            let target = positions_of(player.marks)[place_of(mark)?].ok_or(BOOKMARK_INVALID)?;
            on_run(run, target.into()).map(Effect::MovesTo)
        }
        PlayerCall::Show => Ok(Effect::Shows(element_of(run.generator, run.first + held))),
    }
}

/// The reply to a call, which beside show is its refusal and 0.
pub fn played(player: &mut Player, call: PlayerCall) -> Value {
    let mut value = 0;
    match effect(*player, call) {
        Err(refusal) => return Value { refusal, value: 0 },
        Ok(Effect::Opens(run)) => *player = Player { run, ..Player::default() },
        Ok(Effect::MovesTo(position)) => player.position = position,
        Ok(Effect::Marks(place)) => player.marks[place] = Mark { set: 1, position: player.position },
        Ok(Effect::Shows(number)) => value = number,
    }
    Value { refusal: 0, value }
}

#[cfg(test)]
mod tests {
    use super::*;
    use PlayerCall::*;

    /// Calls with their refusals and what is shown then, `None` where nothing can be.
    #[test]
    fn a_chosen_list_is_played() {
        let (run, empty) = (Run::from([10, 371, 995, 73, 100, 8]), Run::from([10, 371, 995, 73, 100, 0]));
        let list = [
            (Show, OPERAND_OUT_OF_RANGE, None),
            (Open(empty), RUN_OUT_OF_RANGE, None),
            (Open(run), 0, Some(49)),
            (Return(0), BOOKMARK_INVALID, Some(49)),
            (Back(1), POSITION_OUT_OF_RANGE, Some(49)),
            (Forward(2), 0, Some(821)),
            (Mark(3), 0, Some(821)),
            (Mark(4), BOOKMARK_INVALID, Some(821)),
            (Forward(5), 0, Some(1002)),
            (Forward(1), POSITION_OUT_OF_RANGE, Some(1002)),
            (Forward(u64::MAX), POSITION_OUT_OF_RANGE, Some(1002)),
            (Back(4), 0, Some(434)),
            (Return(3), 0, Some(821)),
            (Open(empty), RUN_OUT_OF_RANGE, Some(821)),
            (Open(run), 0, Some(49)),
            (Return(3), BOOKMARK_INVALID, Some(49)),
        ];
        let mut player = Player::default();
        for (call, refusal, shown) in list {
            assert_eq!(played(&mut player, call).refusal, refusal, "{call:?}");
            let Value { refusal, value } = played(&mut player, Show);
            assert_eq!((refusal == 0).then_some(value), shown, "{call:?}");
        }
    }
}
