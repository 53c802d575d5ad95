//! The fixed list.

use crate::case::{Case, Step};
use crate::codes::image_size;
use crate::loops::loops;
use crate::machine::Machine;
use crate::older_banks::older_banks;
use crate::refusals::{refused_calls, refused_starts, refused_states};
use crate::state::{Start, State};
use oracle::History;
use oracle::pairs::largest_measured;
use oracle::random::Random;

/// The lowest and the highest sample.
pub const LOW: i16 = i16::MIN;
pub const HIGH: i16 = i16::MAX;

/// Extreme histories.
pub const HISTORIES: [History; 5] = [[0, 0], [LOW, LOW], [HIGH, HIGH], [LOW, HIGH], [HIGH, LOW]];

/// All cases, the same each time.
pub fn cases() -> Vec<Case> {
    let mut random = Random::new(1);
    let lists = [
        worked(),
        lengths(&mut random),
        edges(&mut random),
        cuts(&mut random),
        of_measured_size(&mut random),
        begun(&mut random),
        refused_starts(&mut random),
        refused_calls(&mut random),
        refused_states(&mut random),
        stale(&mut random),
        on_used_buffers(&mut random),
        from_any_state(&mut random),
        older_banks(&mut Random::new(2)),
        loops(&mut Random::new(3)),
    ];
    lists.concat()
}

/// Document 01's image, on a buffer of its size and on a longer one, and the sizes that stand there.
fn worked() -> Vec<Case> {
    let start = |total, size| Start {
        total,
        rate: 32_000,
        size,
        gain: 0,
        coefficients: [0; 16],
        history: [0; 2],
        looped: None,
    };
    let one = [0, 30].map(|spare| Case::clip(&start(1, 15), &[&[9]], spare));
    let sizes = [(1, 8), (14, 8), (15, 8), (15, 16)];
    let others =
        sizes.map(|(total, size)| Case::clip(&start(total, size), &[&vec![9; total as usize]], 0));
    [one.to_vec(), others.to_vec()].concat()
}

/// Random numbers for all that a clip is started with.
pub fn start(random: &mut Random, total: usize, size: usize) -> Start {
    Start {
        total: total as u32,
        rate: 1 + random.below(u32::MAX as usize) as u32,
        size: size as u32,
        gain: random.bits() as u16,
        coefficients: random.coefficients(),
        history: [random.sample(), random.sample()],
        looped: None,
    }
}

/// Pieces of a length, the last one shorter.
pub fn every(samples: &[i16], len: usize) -> Vec<&[i16]> {
    samples.chunks(len).collect()
}

/// The same with an empty piece before each, and one at the end.
fn with_empty(samples: &[i16], len: usize) -> Vec<&[i16]> {
    let pairs = samples.chunks(len).flat_map(|piece| [&[], piece]);
    pairs.chain([&[][..]]).collect()
}

/// Pieces of 0, 1, 2, 3 .. samples, the last one shorter.
fn growing(mut samples: &[i16]) -> Vec<&[i16]> {
    let mut pieces = vec![];
    while !samples.is_empty() {
        let (piece, rest) = samples.split_at(pieces.len().min(samples.len()));
        pieces.push(piece);
        samples = rest;
    }
    pieces
}

/// Lengths around multiples of 14, block sizes around multiples of 8.
fn lengths(random: &mut Random) -> Vec<Case> {
    let mut cases = vec![];
    for total in [1, 2, 3, 12, 13, 14, 15, 16, 27, 28, 29, 41, 42, 43, 57, 70, 84, 85] {
        for size in [8, 15, 16, 23, 24, 65_536] {
            let samples = random.clip(total);
            let len = 1 + random.below(total);
            let spare = random.below(3);
            cases.push(Case::clip(&start(random, total, size), &every(&samples, len), spare));
        }
    }
    cases
}

/// Clips that end around a block's edge, whole frames at once and in pieces across the edge.
fn edges(random: &mut Random) -> Vec<Case> {
    let mut cases = vec![];
    for per_block in [2, 3, 5, 16] {
        for total in [
            14 * per_block - 1,
            14 * per_block,
            14 * per_block + 1,
            28 * per_block,
            28 * per_block + 1,
        ] {
            let samples = random.tone(total);
            for len in [14 * per_block, 14 * per_block - 1, total] {
                let start = start(random, total, 8 * per_block + per_block % 8);
                cases.push(Case::clip(&start, &every(&samples, len), 5));
            }
        }
    }
    cases
}

/// One clip cut in every way.
fn cuts(random: &mut Random) -> Vec<Case> {
    let samples = random.tone(45);
    let mut ways: Vec<Vec<&[i16]>> =
        [1, 2, 7, 13, 14, 15, 28, 29, 42, 43, 44, 45].map(|len| every(&samples, len)).to_vec();
    ways.extend([1, 5, 14, 15, 45].map(|len| with_empty(&samples, len)));
    ways.push(growing(&samples));
    let mut cases = vec![];
    for size in [8, 16] {
        let start = start(random, samples.len(), size);
        cases.extend(ways.iter().map(|pieces| Case::clip(&start, pieces, 2)));
    }
    cases
}

/// The largest measured coefficients with extreme starting histories and samples.
fn of_measured_size(random: &mut Random) -> Vec<Case> {
    let mut cases = vec![];
    for coefficients in largest_measured() {
        for history in HISTORIES {
            let level = random.sample();
            for samples in [vec![LOW; 15], vec![HIGH; 29], vec![level; 16], random.clip(31)] {
                let half = samples.len() / 2;
                let start = Start { coefficients, history, ..start(random, samples.len(), 8) };
                cases.push(Case::clip(&start, &[&samples[..half], &samples[half..]], 1));
            }
        }
    }
    cases
}

/// The image after each call, on a buffer that is longer.
fn begun(random: &mut Random) -> Vec<Case> {
    let shown = |total: usize, size, len, random: &mut Random| {
        let samples = random.clip(total);
        let mut case = Case::clip(&start(random, total, size), &every(&samples, len), 40);
        for step in &mut case.0 {
            show(step);
        }
        case
    };
    let ways =
        [(15, 8, 7), (28, 8, 14), (31, 16, 10), (43, 16, 43), (56, 24, 20), (20, 65_536, 19)];
    ways.map(|(total, size, len)| shown(total, size, len, random)).to_vec()
}

/// Has the bytes written.
pub fn show(step: &mut Step) {
    if let Step::Start { shown, .. } | Step::Feed { shown, .. } | Step::Close { shown, .. } = step {
        *shown = true;
    }
}

/// The state after some steps.
pub fn after(steps: &[Step]) -> State {
    let mut machine = Machine::default();
    for step in steps {
        machine.take(step);
    }
    machine.state
}

/// States whose unfinished frame holds samples from n modulo 14 on, fed and closed at each length of the last frame.
fn stale(random: &mut Random) -> Vec<Case> {
    let mut cases = vec![];
    for fed in 14..28 {
        let total = 28 + random.below(3) + fed % 2;
        let start = Start { total: total as u32, ..start(random, total, 16) };
        let samples = random.clip(total);
        let whole = Case::clip(&start, &[&samples[..fed], &samples[fed..]], 4);
        let mut steps = whole.0;
        let begun = with_tail(random, after(&steps[..3]));
        steps.insert(3, Step::Put(begun));
        let ended = with_tail(random, after(&steps[..5]));
        steps.insert(5, Step::Put(ended));
        cases.push(Case(steps));
    }
    cases
}

/// The state with other samples after those of its unfinished frame.
pub fn with_tail(random: &mut Random, mut state: State) -> State {
    for sample in &mut state.frame[state.fed as usize % 14..] {
        *sample = random.sample();
    }
    state
}

/// Clips on the buffer of a longer one.
fn on_used_buffers(random: &mut Random) -> Vec<Case> {
    let mut cases = vec![];
    for total in [60, 61, 70] {
        let samples = random.tone(total);
        let mut steps = Case::clip(&start(random, total, 8), &[&samples], 30).0;
        for shorter in [15, 29, 42] {
            let pieces = every(&samples[..shorter], 10);
            steps.extend(Case::clip(&start(random, shorter, 16), &pieces, 60).0.split_off(1));
        }
        cases.push(Case(steps));
    }
    cases
}

/// States that no run gave, with any history, frame and most passes, within frames and blocks.
fn from_any_state(random: &mut Random) -> Vec<Case> {
    let mut cases = vec![];
    for fed in [0, 5, 14, 30, 42, 55, 69, 70] {
        let clip = start(random, 70, 24);
        let room = image_size(70, 24) as usize + 7;
        let frame = std::array::from_fn(|_| random.sample());
        let state = State { fed, passes: fed / 14 * 104, frame, ..clip.state() };
        let piece = random.clip(70 - fed as usize);
        let feed = |piece: &[i16]| Step::Feed { piece: piece.to_vec(), room, shown: true };
        let mut steps = vec![Step::New, Step::Put(state)];
        steps.extend(every(&piece, 27).into_iter().map(feed));
        steps.push(Step::Close { room, shown: true });
        cases.push(Case(steps));
    }
    cases
}
