//! The entry of a loop, and the context in it, which the Rust's decoder tells.

use crate::looped::LoopState;
use crate::state::bytes;
use oracle::{Block, FrameContext, History, SAMPLES_PER_FRAME, decode};

/// The context at a sample of frames in a row that begin from a history: "the header byte of the frame that holds" it, "the two samples played
/// before" it, "newest first (from the starting history where too few)". `Decoder` plays them as one block.
pub fn context_at(blocks: &[&Block], history: History, sample: usize) -> FrameContext {
    let frames: Vec<u8> = blocks.iter().flat_map(|block| block.bytes.clone()).collect();
    let nibbles = blocks.iter().map(|block| block.len).sum();
    let first = FrameContext { predictor_and_scale: frames[0].into(), last_samples: history };
    let (played, _) = decode(&frames, nibbles, &blocks[0].coefficients, first);
    let mut last_samples = history;
    for sample in &played[..sample] {
        last_samples = [*sample, last_samples[0]];
    }
    let header = frames[8 * (sample / SAMPLES_PER_FRAME)];
    FrameContext { predictor_and_scale: header.into(), last_samples }
}

/// "loop start, loop end, the header byte .. as two bytes, the two samples .., two zero bytes"; nothing where there is no loop.
pub fn loop_entry(looped: LoopState, context: FrameContext) -> Vec<u8> {
    let LoopState { start, end, present } = looped;
    if !present {
        return vec![];
    }
    let mut entry = [start.to_be_bytes(), end.to_be_bytes()].concat();
    entry.extend(context_bytes(context));
    entry.extend([0; 2]);
    entry
}

/// "predictor-and-scale (2), newest history sample (2), older one (2)".
pub fn context_bytes(context: FrameContext) -> Vec<u8> {
    let header = context.predictor_and_scale.to_be_bytes();
    [&header[..], &bytes(&context.last_samples)].concat()
}
