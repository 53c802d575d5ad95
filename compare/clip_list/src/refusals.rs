//! Calls that are refused, of the fixed list.

use crate::case::{Case, Step};
use crate::cases::{LOW, after, start};
use crate::codes::image_size;
use crate::state::{Start, State};
use oracle::Coefficients;
use oracle::pairs::{MEASURED, eight_times};
use oracle::random::Random;

/// Starts around each limit and with several reasons at once, and calls on the state that a refused one gives.
pub fn refused_starts(random: &mut Random) -> Vec<Case> {
    let good = start(random, 29, 17);
    let size = image_size(29, 16) as usize;
    let reasons = for_many_reasons(&good, size, eight_times(0, 2049));
    let starts = [around_limits(&good, size), reasons].concat();
    let after = [
        Step::New,
        Step::Start { start: Start { rate: 0, ..good.clone() }, room: size, shown: true },
        Step::Feed { piece: vec![], room: size, shown: true },
        Step::Close { room: size, shown: true },
    ];
    vec![started(starts), Case(after.to_vec())]
}

/// A case that starts in turn.
pub fn started(starts: Vec<(Start, usize)>) -> Case {
    let step = |(start, room)| Step::Start { start, room, shown: false };
    Case([Step::New].into_iter().chain(starts.into_iter().map(step)).collect())
}

/// Starts on both sides of each limit, and with each coefficient around those of measured ones.
fn around_limits(good: &Start, size: usize) -> Vec<(Start, usize)> {
    let mut starts = vec![];
    for total in [0, 14_680_064, 14_680_065, u32::MAX] {
        starts.push((Start { total, ..good.clone() }, size));
    }
    for wanted in [0, 7, 8, 15, 65_536, 65_537, u32::MAX] {
        starts.push((Start { size: wanted, ..good.clone() }, size));
    }
    for place in 0..16 {
        let limit = MEASURED[place % 2];
        for coefficient in [limit, limit + 1, -limit - 1, LOW] {
            let mut coefficients = good.coefficients;
            coefficients[place] = coefficient;
            starts.push((Start { coefficients, ..good.clone() }, size));
        }
    }
    starts.extend([0, 56, size - 1, size].map(|room| (good.clone(), room)));
    starts
}

/// Starts with every choice of four reasons and of other coefficients.
pub fn for_many_reasons(good: &Start, size: usize, others: Coefficients) -> Vec<(Start, usize)> {
    let choice = |bad: usize| {
        let is_bad = |place: usize| bad >> place & 1 == 1;
        let start = Start {
            total: if is_bad(0) { 14_680_065 } else { 29 },
            rate: if is_bad(1) { 0 } else { 32_000 },
            size: if is_bad(2) { 7 } else { 17 },
            coefficients: if is_bad(3) { others } else { good.coefficients },
            ..good.clone()
        };
        (start, if is_bad(4) { size - 1 } else { size })
    };
    (0..32).map(choice).collect()
}

/// Calls that are refused by 8, 9, 10 and 11, alone and together, before and after closing, none of which leaves a trace.
pub fn refused_calls(random: &mut Random) -> Vec<Case> {
    let mut cases = vec![];
    for (total, size) in [(1, 8), (14, 8), (29, 16), (28, 8)] {
        let samples = random.clip(total);
        let start = start(random, total, size);
        let room = image_size(start.total, start.block()) as usize;
        let mut steps = vec![Step::New, Step::Start { start, room, shown: false }];
        let half = total / 2;
        for (from, to) in [(0, half), (half, total)] {
            steps.extend(refused_by_all(total - from, room));
            let piece = samples[from..to].to_vec();
            steps.push(Step::Feed { piece, room, shown: false });
        }
        steps.extend(refused_by_all(0, room));
        steps.push(Step::Close { room, shown: true });
        steps.extend(refused_by_all(0, room));
        steps.push(Step::Close { room, shown: true });
        cases.push(Case(steps));
    }
    cases
}

/// A piece that is too long by one or by many, on a buffer that is long enough or too short; and closing with samples left.
fn refused_by_all(left: usize, room: usize) -> Vec<Step> {
    let feed = |len, room| Step::Feed { piece: vec![-5; len], room, shown: false };
    let mut steps = vec![
        feed(left + 1, room),
        feed(left + 900, room),
        feed(left + 1, room - 1),
        feed(0, room - 1),
        feed(0, 0),
        feed(0, room),
        Step::Close { room: room - 1, shown: false },
    ];
    if left > 0 {
        steps.push(Step::Close { room, shown: false });
    }
    steps
}

/// Calls on states on both sides of each limit, and with each coefficient around those of measured ones.
pub fn refused_states(random: &mut Random) -> Vec<Case> {
    let samples = random.tone(29);
    let start = start(random, samples.len(), 16);
    let room = image_size(start.total, start.block()) as usize + 3;
    let good = after(&Case::clip(&start, &[&samples[..20]], 3).0[..3]);
    let calls = |state: State| {
        let put = Step::Put(state);
        let feed = Step::Feed { piece: vec![1, -2], room, shown: false };
        let short = Step::Feed { piece: vec![0; 40], room: 3, shown: false };
        [put.clone(), feed, put.clone(), short, put, Step::Close { room, shown: false }]
    };
    let states = [of_counts(&good), of_block_sizes(&good), of_coefficients(&good)].concat();
    vec![Case([Step::New].into_iter().chain(states.into_iter().flat_map(calls)).collect())]
}

/// States with n, N, the rate, closed or the passes around their limits; the one given has 20 of 29 samples.
fn of_counts(good: &State) -> Vec<State> {
    let full = State { fed: 29, ..good.clone() };
    let closed = State { closed: true, ..full.clone() };
    vec![
        State { fed: 30, ..good.clone() },
        State { fed: u32::MAX, ..good.clone() },
        State { total: 0, fed: 0, passes: 0, ..good.clone() },
        State { total: 14_680_065, ..good.clone() },
        State { total: 14_680_064, ..good.clone() },
        State { total: u32::MAX, ..good.clone() },
        State { rate: 0, ..good.clone() },
        State { rate: 1, ..good.clone() },
        State { closed: true, ..good.clone() },
        State { closed: true, fed: 28, ..good.clone() },
        State { passes: 104, ..good.clone() },
        State { passes: 105, ..good.clone() },
        State { passes: u32::MAX, ..good.clone() },
        State { passes: 208, ..full.clone() },
        State { passes: 209, ..full },
        State { passes: 312, ..closed.clone() },
        State { passes: 313, ..closed },
        State { fed: 13, passes: 1, ..good.clone() },
        State { fed: 13, passes: 0, ..good.clone() },
        State::default(),
    ]
}

/// States with block sizes that are within the limits and multiples of 8, and that are not.
fn of_block_sizes(good: &State) -> Vec<State> {
    let sizes = [0, 4, 7, 9, 12, 65_535, 65_544, u32::MAX, 8, 24, 65_536];
    sizes.map(|block| State { block, ..good.clone() }).to_vec()
}

/// States with each coefficient at a limit of measured ones and beyond both.
fn of_coefficients(good: &State) -> Vec<State> {
    let with = |place: usize, coefficient: i16| {
        let mut state = good.clone();
        state.coefficients[place] = coefficient;
        state
    };
    let around = |place: usize| {
        let limit = MEASURED[place % 2];
        [limit + 1, -limit - 1, -limit].map(|coefficient| with(place, coefficient))
    };
    (0..16).flat_map(around).collect()
}
