//! Encoding: frames, and clips as blocks.

use crate::pieces::Pieces;
use crate::{Coefficients, Error, History};
use unplug::audio::format::GcAdpcm;
use unplug::audio::format::adpcm::{Encoder, FrameContext, Info, SAMPLES_PER_FRAME};
use unplug::audio::{ReadSamples, Samples};

/// A block as the Rust gives it.
#[derive(Debug, Clone, PartialEq, Eq)]
pub struct Block {
    pub bytes: Vec<u8>,
    /// The length in nibbles, headers included.
    pub len: usize,
    pub rate: u32,
    pub predictor_and_scale: u16,
    pub last_samples: History,
    pub gain: u16,
    pub coefficients: Coefficients,
}

impl Block {
    /// The context that the block is played from.
    pub fn context(&self) -> FrameContext {
        let Self { predictor_and_scale, last_samples, .. } = *self;
        FrameContext { predictor_and_scale, last_samples }
    }

    /// Takes over what the Rust gives.
    fn new(samples: Samples<'_, GcAdpcm>) -> Self {
        Self {
            bytes: samples.data.into_owned(),
            len: samples.len,
            rate: samples.rate,
            predictor_and_scale: samples.params.context.predictor_and_scale,
            last_samples: samples.params.context.last_samples,
            gain: samples.params.gain,
            coefficients: samples.params.coefficients,
        }
    }
}

/// The Rust's state at a history.
fn info(coefficients: &Coefficients, gain: u16, history: History) -> Info {
    let context = FrameContext { predictor_and_scale: 0, last_samples: history };
    Info { coefficients: *coefficients, gain, context }
}

/// Encodes a clip through `Encoder`: its blocks, and the history after it.
pub fn encode_blocks(
    pieces: &[&[i16]],
    rate: u32,
    block_size: usize,
    coefficients: &Coefficients,
    gain: u16,
    history: History,
) -> Result<(Vec<Block>, History), Error> {
    let reader = Pieces::of_samples(pieces, rate);
    let state = info(coefficients, gain, history);
    let mut encoder = Encoder::with_block_size(reader, state, block_size);
    let count = pieces.iter().map(|piece| piece.len()).sum();
    let (blocks, _) = clamps_of(count, || read_blocks(&mut encoder));
    Ok((blocks?, encoder.state().context.last_samples))
}

/// Reads all blocks.
fn read_blocks(encoder: &mut Encoder) -> Result<Vec<Block>, Error> {
    let mut blocks = vec![];
    while let Some(samples) = encoder.read_samples()? {
        blocks.push(Block::new(samples));
    }
    Ok(blocks)
}

/// Encodes one frame of 1 to 14 samples: its bytes, and the history after it.
pub fn encode_frame_bytes(
    history: History,
    samples: &[i16],
    coefficients: &Coefficients,
) -> (Vec<u8>, History) {
    assert!((1..=SAMPLES_PER_FRAME).contains(&samples.len()), "a frame has 1 to 14 samples");
    let (bytes, end, _) = encode_counted(history, samples, coefficients);
    (bytes, end)
}

/// Encodes one frame: its bytes, the history after it, and the calls of `clamp_i16`.
fn encode_counted(
    history: History,
    samples: &[i16],
    coefficients: &Coefficients,
) -> (Vec<u8>, History, u64) {
    let mut state = info(coefficients, 0, history);
    let (bytes, clamps) = clamps_of(samples.len(), || GcAdpcm::encode(samples, &mut state));
    (bytes, state.context.last_samples, clamps)
}

/// Runs the encoding of `count` samples and counts the calls of `clamp_i16`.
///
/// A candidate makes 1 to 14 of them for its estimate and 14 a pass. With coefficients from
/// |c0| + |c1| = 63,361 on there are frames whose search never ends: 13 passes are the most of
/// one that does, and at one call more this panics.
#[cfg(feature = "count")]
fn clamps_of<T>(count: usize, run: impl FnOnce() -> T) -> (T, u64) {
    let frames = count.div_ceil(SAMPLES_PER_FRAME);
    unplug::common::clamps_in(frames as u64 * 8 * (14 + 13 * 14), run)
}

/// Runs the encoding without counting.
#[cfg(not(feature = "count"))]
fn clamps_of<T>(_count: usize, run: impl FnOnce() -> T) -> (T, u64) {
    (run(), 0)
}

#[cfg(feature = "count")]
pub use counted::{Encoded, encode, encode_frame};

#[cfg(feature = "count")]
mod counted {
    use super::*;

    /// A clip's blocks, the history after it, and the passes of its frames.
    #[derive(Debug, Clone, PartialEq, Eq)]
    pub struct Encoded {
        pub blocks: Vec<Block>,
        pub history: History,
        pub passes: u64,
    }

    /// Encodes a clip as `encode_blocks` does, and counts passes.
    pub fn encode(
        pieces: &[&[i16]],
        rate: u32,
        block_size: usize,
        coefficients: &Coefficients,
        gain: u16,
        history: History,
    ) -> Result<Encoded, Error> {
        let (blocks, end) = encode_blocks(pieces, rate, block_size, coefficients, gain, history)?;
        let passes = clip_passes(&pieces.concat(), coefficients, history);
        Ok(Encoded { blocks, history: end, passes })
    }

    /// Encodes one frame of 1 to 14 samples: its bytes, its passes, and the history after it.
    pub fn encode_frame(
        history: History,
        samples: &[i16],
        coefficients: &Coefficients,
    ) -> (Vec<u8>, u32, History) {
        let (bytes, end) = encode_frame_bytes(history, samples, coefficients);
        let pairs = coefficients.as_chunks::<2>().0;
        let passes = pairs.iter().map(|pair| pair_passes(history, samples, pair)).sum();
        (bytes, passes, end)
    }

    /// The passes of all frames of a clip.
    fn clip_passes(samples: &[i16], coefficients: &Coefficients, mut history: History) -> u64 {
        let mut sum = 0;
        for frame in samples.chunks(SAMPLES_PER_FRAME) {
            let (_, passes, end) = encode_frame(history, frame, coefficients);
            sum += u64::from(passes);
            history = end;
        }
        sum
    }

    /// The passes that one pair makes on a frame: it is encoded with eight times this pair.
    fn pair_passes(history: History, samples: &[i16], pair: &[i16; 2]) -> u32 {
        let alone = std::array::from_fn(|place| pair[place % 2]);
        let (_, _, clamps) = encode_counted(history, samples, &alone);
        assert_eq!(clamps % 8, 0);
        ((clamps / 8 - 1) / 14) as u32
    }
}
