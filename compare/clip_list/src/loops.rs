//! Clips with loops, of the fixed list.

use crate::case::{Case, Step};
use crate::cases::{after, every, show, start};
use crate::looped::{Loop, LoopState};
use crate::refusals::started;
use crate::state::{Start, State};
use oracle::FrameContext;
use oracle::pairs::with_pair;
use oracle::random::Random;

/// Two frames and a half.
const TOTAL: usize = 35;

/// All of them, in order.
pub fn loops(random: &mut Random) -> Vec<Case> {
    let mut cases = worked();
    cases.extend([8, 16].map(|size| every_start(random, size)));
    cases.extend(in_short_frames(random));
    cases.push(begun(random));
    cases.push(refused_starts(random));
    cases.push(broken_states(random));
    cases.push(contexts_by_hand(random));
    cases
}

/// A ramp of 20 samples in blocks of this size: what it is started with, and its samples.
pub fn ramp(size: u32, looped: Option<Loop>) -> (Start, Vec<i16>) {
    let coefficients = with_pair([0; 16], 0, [2048, 0]);
    let history = [1000, 990];
    let start = Start { total: 20, rate: 32_000, size, gain: 7, coefficients, history, looped };
    (start, (0..20).map(|i| 1000 + 6 * i).collect())
}

/// The ramp with no loop and with five.
fn worked() -> Vec<Case> {
    let loops = [(8, 5, 17), (8, 0, 20), (8, 1, 3), (8, 14, 20), (16, 19, 20)];
    let ramps = loops.map(|(size, start, end)| ramp(size, Some(Loop { start, end })));
    let case = |(start, samples): (Start, Vec<i16>)| Case::clip(&start, &[&samples], 0);
    [ramp(8, None)].into_iter().chain(ramps).map(case).collect()
}

/// The clip started with a loop.
fn with_loop(clip: &Start, start: usize, end: usize) -> Start {
    let looped = Some(Loop { start: start as u32, end: end as u32 });
    Start { looped, ..clip.clone() }
}

/// One clip with a loop at every start, on the same buffer; at the edges of frames in two pieces, of which the first fills the start's frame or
/// lacks one sample.
fn every_start(random: &mut Random, size: usize) -> Case {
    let samples = random.tone(TOTAL);
    let clip = start(random, TOTAL, size);
    let mut steps = vec![Step::New];
    for first in 0..TOTAL {
        let any = first + 1 + random.below(TOTAL - first);
        let next_frame = 14 * (first / 14 + 1);
        let end = [first + 1, any, TOTAL, next_frame + first % 3][first % 4].min(TOTAL);
        let cut = (next_frame - first % 2).min(TOTAL);
        let pieces = [&samples[..cut], &samples[cut..]];
        let is_edge = size == 16 && [0, 13].contains(&(first % 14));
        let pieces = if is_edge { &pieces } else { &[&samples[..]][..] };
        steps.extend(Case::clip(&with_loop(&clip, first, end), pieces, 3).0.split_off(1));
    }
    Case(steps)
}

/// Loops that start in a last frame of one sample, of two and of thirteen.
fn in_short_frames(random: &mut Random) -> Vec<Case> {
    let mut cases = vec![];
    for (total, size, first) in [(1, 8, 0), (15, 8, 14), (30, 16, 29), (27, 65_536, 20)] {
        let samples = random.clip(total);
        let clip = start(random, total, size);
        cases.push(Case::clip(&with_loop(&clip, first, total), &every(&samples, 14), 1));
    }
    cases
}

/// The image after each call: the loop's entry is zero until closing.
fn begun(random: &mut Random) -> Case {
    let samples = random.clip(31);
    let clip = with_loop(&start(random, 31, 16), 9, 30);
    let mut case = Case::clip(&clip, &every(&samples, 12), 20);
    case.0.iter_mut().for_each(show);
    case
}

/// Starts with loops on both sides of each limit, on buffers of S bytes and less, and with other reasons.
fn refused_starts(random: &mut Random) -> Case {
    let clip = start(random, 29, 17);
    let whole = with_loop(&clip, 0, 29).image_size() as usize;
    let last = u32::MAX as usize;
    let ends = [(3, 3), (4, 3), (0, 30), (0, 0), (28, 29), (29, 30), (1, last), (last, 0)];
    let loops = ends.map(|(start, end)| (with_loop(&clip, start, end), whole));
    let mut starts = loops.to_vec();
    starts.extend([0, 15, 16].map(|less| (with_loop(&clip, 14, 28), whole - less)));
    let broken = with_loop(&clip, 30, 29);
    let coefficients = with_pair(clip.coefficients, 3, [30_720, 30_721]);
    starts.extend([
        (Start { coefficients, ..broken.clone() }, whole),
        (Start { size: 7, ..broken.clone() }, whole),
        (Start { rate: 0, ..broken.clone() }, whole),
        (Start { total: 0, ..broken.clone() }, whole),
        (broken, 3),
        (Start { coefficients, ..with_loop(&clip, 1, 2) }, 3),
    ]);
    let mut case = started(starts);
    case.0.push(Step::Close { room: whole, shown: false });
    case
}

/// A clip of 29 samples, of which 20 are fed, with a loop from sample 5 on.
fn begun_state(random: &mut Random) -> (State, Vec<i16>, usize) {
    let samples = random.tone(29);
    let clip = with_loop(&start(random, samples.len(), 16), 5, 29);
    let state = after(&Case::clip(&clip, &[&samples[..20]], 0).0[..3]);
    (state, samples[20..].to_vec(), clip.image_size() as usize)
}

/// A state put, fed to the end and closed.
fn put_and_closed(state: State, rest: &[i16], room: usize, shown: bool) -> [Step; 3] {
    let feed = Step::Feed { piece: rest.to_vec(), room, shown };
    [Step::Put(state), feed, Step::Close { room, shown }]
}

/// States with loops on both sides of each limit, and with numbers of no loop that would be broken.
fn broken_states(random: &mut Random) -> Case {
    let (good, rest, room) = begun_state(random);
    let mut steps = vec![Step::New];
    let ends = [(3, 3), (4, 3), (0, 30), (0, 0), (28, 29)];
    let loops = ends.map(|(start, end)| LoopState { start, end, present: true });
    let none = [(7, 7), (0, 30)].map(|(start, end)| LoopState { start, end, present: false });
    for looped in loops.into_iter().chain(none) {
        steps.extend(put_and_closed(State { looped, ..good.clone() }, &rest, room, false));
    }
    Case(steps)
}

/// States whose context no run gave, of loops that start before the unfinished frame, in it and after it, and of no loop; and on buffers that
/// have too few bytes for the loop's entry.
fn contexts_by_hand(random: &mut Random) -> Case {
    let (good, rest, room) = begun_state(random);
    let mut steps = vec![Step::New];
    for (start, present) in [(5, true), (13, true), (14, true), (19, true), (28, true), (5, false)]
    {
        let last_samples = [random.sample(), random.sample()];
        let header = random.bits() as u16;
        let loop_context = FrameContext { predictor_and_scale: header, last_samples };
        let looped = LoopState { start, end: 29, present };
        let state = State { looped, loop_context, ..good.clone() };
        steps.extend(put_and_closed(state, &rest, room, true));
    }
    for less in [1, 16] {
        steps.extend(put_and_closed(good.clone(), &rest, room - less, false));
    }
    Case(steps)
}
