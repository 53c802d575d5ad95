//! Feeding and closing from arbitrary states, on a buffer that no start has written.

use crate::calls::compare;
use crate::tally::Tally;
use clip_list::{Case, State, Step, broken_loop, with_loop_by_hand};
use oracle::random::Random;

/// A random state, one in three of which is refused, two pieces and a close.
pub fn random(random: &mut Random, tally: &mut Tally) {
    let good = state(random);
    let room = good.image_size() as usize + random.below(9);
    let left = (good.total - good.fed) as usize;
    let piece = random.below(left + 2).min(random.below_one(&[30, 400]));
    let rest = [left.saturating_sub(piece), random.below(20)][random.below(4) / 3];
    let state = if random.below(3) == 0 { spoiled(random, &good) } else { good };
    let mut steps = vec![Step::New, Step::Put(state)];
    for len in [piece, rest] {
        steps.push(Step::Feed { piece: random.clip(len), room, shown: false });
    }
    steps.push(Step::Close { room, shown: false });
    compare(&Case(steps), tally);
}

/// A state that is accepted, mostly with a loop or a context that no run gave.
fn state(random: &mut Random) -> State {
    let total = 1 + random.below_one(&[3, 30, 60, 400]) as u32;
    let closed = random.below(16) == 0;
    let fed = if closed { total } else { random.below(total as usize + 1) as u32 };
    let encoded = if closed { total.div_ceil(14) } else { fed / 14 };
    let state = State {
        total,
        rate: 1 + random.bits() as u32 / 2,
        block: 8 * (1 + random.below_one(&[1, 4, 20, 8192]) as u32),
        gain: random.bits() as u16,
        coefficients: if random.below(3) == 0 {
            random.older_bank()
        } else {
            random.coefficients()
        },
        history: [random.sample(), random.sample()],
        fed,
        passes: random.below(104 * encoded as usize + 1) as u32,
        frame: std::array::from_fn(|_| random.sample()),
        closed,
        ..State::default()
    };
    if random.below(3) == 0 { state } else { with_loop_by_hand(random, state) }
}

/// A state with one field that may be anything, near its limits more often.
fn spoiled(random: &mut Random, good: &State) -> State {
    let mut state = good.clone();
    let any = [random.bits() as u32, random.below(20) as u32][random.below(2)];
    match random.below(8) {
        0 => state.fed = [any, state.total + 1][random.below(2)],
        1 => state.total = [0, state.fed.saturating_sub(1), 14_680_065, u32::MAX][random.below(4)],
        2 => state.block = [0, 7, 12, 65_537, 65_544, u32::MAX][random.below(6)],
        3 => state.rate = 0,
        4 if random.below(4) == 0 => {
            state.coefficients = random.with_one_larger(state.coefficients);
        }
        4 => state.coefficients = random.with_pair_beyond(state.coefficients),
        5 => state.closed = true,
        6 => state.looped = Some(broken_loop(random, state.total)).into(),
        _ => state.passes = [104 * state.total.div_ceil(14) + 1, u32::MAX][random.below(2)],
    }
    state
}
