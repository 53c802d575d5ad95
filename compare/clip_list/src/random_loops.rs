//! Random loops.

use crate::looped::{Loop, LoopState};
use crate::state::{Start, State};
use oracle::FrameContext;
use oracle::random::Random;

/// A loop of a clip, with ends near those of frames, of blocks and of the clip more often.
pub fn random_loop(random: &mut Random, total: u32, block: u32) -> Loop {
    let [one, other] = [0; 2].map(|_| near_an_edge(random, total, block));
    let (start, end) = (one.min(other), one.max(other));
    match (start < end, end < total) {
        (true, _) => Loop { start, end },
        (_, true) => Loop { start, end: end + 1 },
        _ => Loop { start: total - 1, end: total },
    }
}

/// A number up to N.
fn near_an_edge(random: &mut Random, total: u32, block: u32) -> u32 {
    let (total, per_block) = (total as usize, block as usize / 8 * 14);
    let near = |edge: usize, more: usize| (edge + more).saturating_sub(1);
    let place = match random.below(8) {
        0 => random.below(3),
        1 => near(14 * random.below(total / 14 + 1), random.below(3)),
        2 | 3 => near(per_block * random.below(total / per_block + 1), random.below(3)),
        4 => total - random.below(total.min(15)),
        _ => random.below(total + 1),
    };
    place.min(total) as u32
}

/// A loop that is refused.
pub fn broken_loop(random: &mut Random, total: u32) -> Loop {
    let any = random.below(total as usize + 1) as u32;
    let (start, end) = match random.below(6) {
        0 => (any, any),
        1 => (any + 1, any),
        2 => (any, total + 1),
        3 => (any, total.saturating_add(random.bits() as u32 / 2).max(total + 1)),
        4 => (random.bits() as u32, any),
        _ => (total, total + random.below(2) as u32),
    };
    match (Loop { start, end }).is_within(total) {
        true => Loop { start: end, end: start },
        false => Loop { start, end },
    }
}

/// The clip, half of the time with a loop.
pub fn with_random_loop(random: &mut Random, start: Start) -> Start {
    let looped = (random.below(2) == 0).then(|| random_loop(random, start.total, start.block()));
    Start { looped, ..start }
}

/// The state with another context, another loop, with one that it had not, or without one that it had.
pub fn with_loop_by_hand(random: &mut Random, mut state: State) -> State {
    let last_samples = [random.sample(), random.sample()];
    state.loop_context = FrameContext { predictor_and_scale: random.bits() as u16, last_samples };
    if random.below(2) == 0 {
        state.looped = Some(random_loop(random, state.total, state.block)).into();
    }
    if random.below(4) == 0 {
        state.looped = LoopState { present: false, ..state.looped };
    }
    state
}
