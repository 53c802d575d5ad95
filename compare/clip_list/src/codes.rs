//! The documents' numbers of refusals, read plainly; 0 where a call is accepted.

use crate::looped::Loop;
use crate::state::{Start, State};
use oracle::pairs::are_within_limit;

/// The most samples of a clip.
const MOST_SAMPLES: u32 = 14_680_064;

/// The frames of a clip.
fn frames(total: u32) -> u64 {
    u64::from(total).div_ceil(14)
}

/// The bytes of all bodies, T, of a count that is not 0.
pub fn body_size(total: u32) -> u64 {
    let last = u64::from(total) - 14 * (frames(total) - 1);
    8 * (frames(total) - 1) + 1 + last.div_ceil(2)
}

/// "Image size S = 56 + 16K + T", of a clip without a loop.
pub fn image_size(total: u32, block: u32) -> u64 {
    56 + 16 * block_count(total, block) + body_size(total)
}

impl Start {
    /// S: with a loop "S grows by 16".
    pub fn image_size(&self) -> u64 {
        image_size(self.total, self.block()) + self.looped.map_or(0, |_| 16)
    }
}

impl State {
    /// The same of a state.
    pub fn image_size(&self) -> u64 {
        image_size(self.total, self.block) + self.looped.looped().map_or(0, |_| 16)
    }
}

/// "Blocks K = ⌈8F/B⌉".
pub fn block_count(total: u32, block: u32) -> u64 {
    (8 * frames(total)).div_ceil(block.into())
}

fn total_is_bad(total: u32) -> bool {
    total == 0 || total > MOST_SAMPLES
}

/// Code 23's rule, of a loop where there is one.
fn loop_is_bad(looped: Option<Loop>, total: u32) -> bool {
    looped.is_some_and(|looped| !looped.is_within(total))
}

fn size_is_bad(size: u32) -> bool {
    !(8..=65_536).contains(&size)
}

/// Code 1.
fn state_is_bad(state: &State) -> bool {
    let State { total, rate, block, fed, closed, .. } = *state;
    let encoded = if closed { frames(total) } else { u64::from(fed) / 14 };
    fed > total
        || total_is_bad(total)
        || size_is_bad(block)
        || block % 8 != 0
        || rate == 0
        || !are_within_limit(&state.coefficients)
        || loop_is_bad(state.looped.looped(), total)
        || closed && fed < total
        || u64::from(state.passes) > 104 * encoded
}

/// Starting.
pub fn start_code(start: &Start, room: usize) -> u8 {
    let Start { total, rate, size, .. } = *start;
    if total_is_bad(total) {
        4
    } else if rate == 0 {
        5
    } else if size_is_bad(size) {
        6
    } else if !are_within_limit(&start.coefficients) {
        7
    } else if loop_is_bad(start.looped, total) {
        23
    } else if (room as u64) < start.image_size() {
        8
    } else {
        0
    }
}

/// Codes 1, 8 and 9.
fn going_code(state: &State, room: usize) -> u8 {
    if state_is_bad(state) {
        1
    } else if (room as u64) < state.image_size() {
        8
    } else if state.closed {
        9
    } else {
        0
    }
}

/// Feeding a piece of some length.
pub fn feed_code(state: &State, piece: usize, room: usize) -> u8 {
    match going_code(state, room) {
        0 if piece as u64 > u64::from(state.total - state.fed) => 10,
        code => code,
    }
}

/// Closing.
pub fn close_code(state: &State, room: usize) -> u8 {
    match going_code(state, room) {
        0 if state.fed < state.total => 11,
        code => code,
    }
}
