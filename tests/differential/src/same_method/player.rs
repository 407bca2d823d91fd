//! The player: each call checks what the record holds, and writes no more than it changes.

use super::{element_of, run_refusal};
use crate::calls::*;

fn held_refusal(player: &Player) -> u64 {
    let refusal = run_refusal(player.run);
    if refusal == 0 && player.run.count <= player.position {
        return POSITION_OUT_OF_RANGE;
    }
    refusal
}

#[inline(never)]
pub fn player_open(player: &mut Player, run: Run) -> u64 {
    let refusal = run_refusal(run);
    if refusal == 0 {
        *player = Player { run, ..Player::default() };
    }
    refusal
}

#[inline(never)]
pub fn player_forward(player: &mut Player, steps: u64) -> u64 {
    let refusal = held_refusal(player);
    if refusal != 0 {
        return refusal;
    }
    if player.run.count - player.position <= steps {
        return POSITION_OUT_OF_RANGE;
    }
    player.position += steps;
    0
}

#[inline(never)]
pub fn player_back(player: &mut Player, steps: u64) -> u64 {
    let refusal = held_refusal(player);
    if refusal != 0 {
        return refusal;
    }
    if player.position < steps {
        return POSITION_OUT_OF_RANGE;
    }
    player.position -= steps;
    0
}

#[inline(never)]
pub fn player_mark(player: &mut Player, mark: u64) -> u64 {
    let refusal = held_refusal(player);
    if refusal != 0 {
        return refusal;
    }
    if mark > 3 {
        return BOOKMARK_INVALID;
    }
    player.marks[mark as usize] = Mark { set: 1, position: player.position };
    0
}

#[inline(never)]
pub fn player_return(player: &mut Player, mark: u64) -> u64 {
    let refusal = held_refusal(player);
    if refusal != 0 {
        return refusal;
    }
    if mark > 3 || player.marks[mark as usize].set == 0 {
        return BOOKMARK_INVALID;
    }
    let position = player.marks[mark as usize].position;
    if player.run.count <= position {
        return POSITION_OUT_OF_RANGE;
    }
    player.position = position;
    0
}

#[inline(never)]
pub fn player_show(player: &Player) -> Value {
    match held_refusal(player) {
        0 => {
            Value { refusal: 0, value: element_of(player.run.generator, player.run.first + player.position) }
        }
        refusal => Value { refusal, value: 0 },
    }
}

#[cfg(test)]
mod tests {
    use super::*;
    use crate::random::Random;
    use crate::{model, players};

    fn played(player: &mut Player, call: PlayerCall) -> Value {
        let refusal = match call {
            PlayerCall::Open(run) => player_open(player, run),
            PlayerCall::Forward(steps) => player_forward(player, steps),
            PlayerCall::Back(steps) => player_back(player, steps),
            PlayerCall::Mark(mark) => player_mark(player, mark),
            PlayerCall::Return(mark) => player_return(player, mark),
            PlayerCall::Show => return player_show(player),
        };
        Value { refusal, value: 0 }
    }

    #[test]
    fn player_agrees_with_the_model() {
        let mut r = Random::new(11);
        for _ in 0..20_000 {
            let mut player = players::record(&mut r);
            for _ in 0..10 {
                let (before, mut other) = (player, player);
                let call = players::call(&mut r, player);
                let replies = (played(&mut player, call), model::player::played(&mut other, call));
                assert_eq!((replies.0, player), (replies.1, other), "{call:?} on {before:?}");
            }
        }
    }
}
