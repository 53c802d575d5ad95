//! Random clips.

use crate::case::{Case, Step};
use crate::cases::{HISTORIES, after, start, with_tail};
use crate::random_loops::{broken_loop, with_loop_by_hand, with_random_loop};
use crate::state::{Start, State};
use oracle::measure;
use oracle::pairs::largest_measured;
use oracle::random::Random;

/// A random clip from start to close, with refused calls in between; some are left unfinished.
pub fn random_clip(random: &mut Random) -> Case {
    let samples = random_samples(random);
    let start = random_start(random, &samples);
    let start = with_larger_coefficients(random, start);
    let start = with_random_loop(random, start);
    let room = start.image_size() as usize + random.below_one(&[1, 4, 100]);
    let mut steps = vec![Step::New];
    if random.below(8) == 0 {
        steps.push(refused_start(random, &start, room));
    }
    steps.push(Step::Start { start: start.clone(), room, shown: random.below(16) == 0 });
    let mut left = samples.len();
    let is_left = random.below(24) == 0;
    for piece in cut(random, &samples) {
        if random.below(24) == 0 {
            steps.push(refused_call(random, left, false, room));
        }
        if is_left && random.below(4) == 0 {
            break;
        }
        left -= piece.len();
        steps.push(Step::Feed { piece: piece.to_vec(), room, shown: random.below(64) == 0 });
        if random.below(64) == 0 {
            alter(random, &mut steps, room);
        }
    }
    steps.push(Step::Close { room, shown: true });
    if random.below(8) == 0 {
        steps.push(refused_call(random, left, left == 0, room));
    }
    Case(steps)
}

/// Samples of any kind, mostly few.
pub fn random_samples(random: &mut Random) -> Vec<i16> {
    let mut samples = vec![];
    let len = 1 + random.below_one(&[3, 16, 45, 60, 60, 100, 150, 400]);
    while samples.len() < len {
        let part = 1 + random.below_one(&[20, 60, 400]);
        let tone = random.below(3) == 0;
        samples.extend(if tone { random.tone(part) } else { random.clip(part) });
    }
    samples.truncate(len);
    samples
}

/// What the samples' clip is started with, coefficients being of measured size.
pub fn random_start(random: &mut Random, samples: &[i16]) -> Start {
    let size = match random.below(8) {
        0 => 8 + random.below(8),
        1..5 => 8 * (1 + random.below(8)) + random.below(8),
        5 => 8 + random.below(400),
        6 => 65_536 - random.below(16),
        _ => 8 + random.below(65_529),
    };
    let mut start = start(random, samples.len(), size);
    match random.below(8) {
        0 => start.coefficients = largest_measured()[random.below(6)],
        1..4 => start.coefficients = measure(&[samples]).coefficients,
        _ => {}
    }
    if random.below(4) == 0 {
        start.history = HISTORIES[random.below(HISTORIES.len())];
    }
    start
}

/// The same, a third of the time with an older bank, at times with one larger coefficient.
fn with_larger_coefficients(random: &mut Random, start: Start) -> Start {
    let coefficients = match random.below(12) {
        0..4 => random.older_bank(),
        4 => random.with_one_larger(start.coefficients),
        _ => start.coefficients,
    };
    Start { coefficients, ..start }
}

/// Cuts samples into pieces, some of them empty.
fn cut<'s>(random: &mut Random, mut samples: &'s [i16]) -> Vec<&'s [i16]> {
    let limit = [2, 4, 15, 15, 30, 60, 500][random.below(7)].max(samples.len() / 30);
    let mut pieces = vec![];
    while !samples.is_empty() {
        let (piece, rest) = samples.split_at(random.below(limit).min(samples.len()));
        pieces.push(piece);
        samples = rest;
    }
    if random.below(8) == 0 {
        pieces.push(samples);
    }
    pieces
}

/// A start that is refused, for one reason or several.
fn refused_start(random: &mut Random, good: &Start, room: usize) -> Step {
    let (mut start, mut room) = (good.clone(), room);
    for _ in 0..1 + random.below(3) {
        match random.below(8) {
            0 => start.total = [0, 14_680_065 + random.below(9) as u32][random.below(2)],
            1 => start.rate = 0,
            2 => {
                start.size =
                    [random.below(8) as u32, 65_537 + random.bits() as u32 / 2][random.below(2)]
            }
            3 => start.coefficients = random.with_pair_beyond(start.coefficients),
            4 => start.total = 14_680_064,
            5 | 6 => start.looped = Some(broken_loop(random, good.total)),
            _ => room = random.below(good.image_size() as usize),
        }
    }
    Step::Start { start, room, shown: false }
}

/// A call that is refused: the piece is too long, samples are left, the buffer is too short, or the clip is closed.
fn refused_call(random: &mut Random, left: usize, closed: bool, room: usize) -> Step {
    let shown = random.below(16) == 0;
    let short = random.below(56);
    let some = if random.below(3) == 0 { short } else { room };
    if random.below(2) == 0 {
        let len = left + 1 + random.below_one(&[1, 30]);
        return Step::Feed { piece: random.clip(len), room: some, shown };
    }
    let could_close = left == 0 && !closed;
    Step::Close { room: if could_close { short } else { some }, shown }
}

/// Puts a state that no run gives: a stale tail, another history, another loop, or one that is refused, which is put right after a call.
fn alter(random: &mut Random, steps: &mut Vec<Step>, room: usize) {
    let state = after(steps);
    match random.below(6) {
        0 | 1 => steps.push(Step::Put(with_tail(random, state))),
        2 | 3 => steps.push(Step::Put(with_loop_by_hand(random, state))),
        4 => {
            let history = [random.sample(), random.sample()];
            steps.push(Step::Put(State { history, ..with_tail(random, state) }));
        }
        _ => {
            steps.push(Step::Put(bad(random, &state)));
            let call = if random.below(2) == 0 {
                Step::Close { room, shown: false }
            } else {
                Step::Feed { piece: random.clip(3), room, shown: false }
            };
            steps.extend([call, Step::Put(state)]);
        }
    }
}

/// A state that is refused.
fn bad(random: &mut Random, state: &State) -> State {
    let mut bad = state.clone();
    match random.below(10) {
        0 => bad.fed = bad.total + 1 + random.below(9) as u32,
        1 => bad.total = [0, 14_680_065][random.below(2)],
        2 => bad.block = [0, 4, 65_544, bad.block + 1 + random.below(7) as u32][random.below(4)],
        3 => bad.rate = 0,
        4 | 5 => bad.coefficients = random.with_pair_beyond(bad.coefficients),
        6 if bad.fed < bad.total => bad.closed = true,
        7 | 8 => bad.looped = Some(broken_loop(random, bad.total)).into(),
        _ => bad.passes = 104 * (bad.fed / 14) + 1,
    }
    bad
}
