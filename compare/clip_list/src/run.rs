//! What the Rust's encoder makes of the pieces fed since a start.

use crate::image::{encode_from, image_of, split, write_blocks, write_end};
use crate::loop_entry::context_at;
use crate::state::{Start, State};
use oracle::{Block, FrameContext, History, SAMPLES_PER_FRAME, encode_frame};

/// The state and the buffer at a start or where either was put, and the pieces fed since.
#[derive(Default)]
pub struct Run {
    from: State,
    before: Vec<u8>,
    start: Option<Start>,
    pieces: Vec<Vec<i16>>,
    /// The passes of each frame since, and the history after it.
    frames: Vec<(u32, History)>,
}

impl Run {
    /// No piece yet.
    pub fn new(from: State, before: Vec<u8>, start: Option<Start>) -> Self {
        Self { from, before, start, ..Self::default() }
    }

    /// Feeds a piece.
    pub fn push(&mut self, piece: &[i16]) {
        self.pieces.push(piece.to_vec());
    }

    /// The state and the buffer now: with the full frames encoded, or with all where the clip is closed.
    pub fn now(&mut self, closed: bool) -> (State, Vec<u8>) {
        let fed = self.from.fed as usize;
        let begun = fed % SAMPLES_PER_FRAME;
        let pieces = with_begun(&self.from.frame[..begun], &self.pieces);
        let samples = pieces.concat();
        let unfinished = if closed { 0 } else { samples.len() % SAMPLES_PER_FRAME };
        let (full, rest) = samples.split_at(samples.len() - unfinished);
        let (encoded, _) = split(&pieces, full.len());
        let (blocks, history) = encode_from(&self.from, fed / SAMPLES_PER_FRAME, &encoded);
        let is_empty = full.is_empty() && !closed;
        let mut frame = if is_empty { self.from.frame } else { [0; SAMPLES_PER_FRAME] };
        frame[..rest.len()].copy_from_slice(rest);
        let fed = (fed + samples.len() - begun) as u32;
        let loop_context = self.loop_context(&blocks);
        let from = self.from.clone();
        let state = State { fed, history, frame, closed, loop_context, ..from };
        let image = self.image(&blocks, &state, closed.then_some(&pieces));
        let passes = self.from.passes + self.passes(full, history);
        (State { passes, ..state }, image)
    }

    /// The context at the loop's start: told by these blocks where one of them has its frame, else as it was.
    fn loop_context(&self, blocks: &[(usize, Block)]) -> FrameContext {
        let blocks: Vec<_> = blocks.iter().map(|(_, block)| block).collect();
        let first = self.from.fed as usize / SAMPLES_PER_FRAME;
        let frames: usize = blocks.iter().map(|block| block.len.div_ceil(16)).sum();
        let start = self.from.looped.looped().map(|looped| looped.start as usize);
        let is_here = |s: &usize| (first..first + frames).contains(&(s / SAMPLES_PER_FRAME));
        start.filter(is_here).map_or(self.from.loop_context, |start| {
            context_at(&blocks, self.from.history, start - SAMPLES_PER_FRAME * first)
        })
    }

    /// The buffer with blocks at their places, and what closing adds where the clip is closed with these pieces.
    fn image(
        &self,
        blocks: &[(usize, Block)],
        now: &State,
        closed: Option<&Vec<&[i16]>>,
    ) -> Vec<u8> {
        let mut image = self.before.clone();
        write_blocks(&mut image, &self.from, blocks);
        if let Some(pieces) = closed {
            write_end(&mut image, now);
            if let Some(start) = &self.start {
                let whole = image_of(start, pieces);
                assert_eq!(image[..whole.len()], whole);
            }
        }
        image
    }

    /// The passes of the frames, which leave the history given.
    fn passes(&mut self, samples: &[i16], history: History) -> u32 {
        let known = self.frames.len();
        let mut last = self.frames.last().map_or(self.from.history, |(_, history)| *history);
        for frame in samples.chunks(SAMPLES_PER_FRAME).skip(known) {
            let (_, passes, after) = encode_frame(last, frame, &self.from.coefficients);
            self.frames.push((passes, after));
            last = after;
        }
        assert_eq!(last, history);
        self.frames.iter().map(|(passes, _)| passes).sum()
    }
}

/// The pieces, after the samples of a frame that was begun before them.
fn with_begun<'s>(begun: &'s [i16], pieces: &'s [Vec<i16>]) -> Vec<&'s [i16]> {
    let begun = Some(begun).filter(|begun| !begun.is_empty());
    begun.into_iter().chain(pieces.iter().map(Vec::as_slice)).collect()
}
