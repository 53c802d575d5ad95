//! Document 01's image, made of the Rust's blocks.

use crate::codes::block_count;
use crate::loop_entry::{context_at, context_bytes, loop_entry};
use crate::state::{Start, State, bytes};
use oracle::{Block, History, encode_blocks};

/// "the mark 44 53 50 43".
const MARK: [u8; 4] = *b"DSPC";

/// The bytes of the head, of an entry, and of a frame.
const HEAD: usize = 56;
const ENTRY: usize = 16;
const FRAME: usize = 8;

/// An image of blocks: N, rate, B, coefficients, gain, whether there is a loop, K, each block's entry, the loop's, and their bodies. Offsets
/// are summed up from the bodies.
fn image_of_blocks(mark: [u8; 4], start: &Start, blocks: &[Block], looped: &[u8]) -> Vec<u8> {
    let first = &blocks[0];
    let mut image = mark.to_vec();
    for number in [start.total, first.rate, start.block()] {
        image.extend(number.to_be_bytes());
    }
    image.extend(bytes(&first.coefficients));
    image.extend(first.gain.to_be_bytes());
    image.extend([0, u8::from(start.looped.is_some())]);
    image.extend((blocks.len() as u32).to_be_bytes());
    let mut offset = HEAD + ENTRY * blocks.len() + looped.len();
    for block in blocks {
        image.extend((offset as u32).to_be_bytes());
        image.extend((block.len as u32).to_be_bytes());
        image.extend(context_bytes(block.context()));
        image.extend([0; 2]);
        offset += block.bytes.len();
    }
    image.extend(looped);
    image.extend(blocks.iter().flat_map(|block| &block.bytes));
    image
}

/// The closed image of blocks, with the entry of a loop where there is one.
pub fn closed_image(start: &Start, blocks: &[Block], looped: &[u8]) -> Vec<u8> {
    image_of_blocks(MARK, start, blocks, looped)
}

/// The blocks of a clip, and the history after it.
pub fn blocks_of(start: &Start, pieces: &[&[i16]]) -> (Vec<Block>, History) {
    let Start { rate, size, gain, ref coefficients, history, .. } = *start;
    encode_blocks(pieces, rate, size as usize, coefficients, gain, history).unwrap()
}

/// The closed image of a clip.
pub fn image_of(start: &Start, pieces: &[&[i16]]) -> Vec<u8> {
    let (blocks, _) = blocks_of(start, pieces);
    let Some(looped) = start.looped else { return closed_image(start, &blocks, &[]) };
    let all: Vec<_> = blocks.iter().collect();
    let context = context_at(&all, start.history, looped.start as usize);
    closed_image(start, &blocks, &loop_entry(Some(looped).into(), context))
}

/// The image that starting writes: the lengths are those of the blocks of silence; contexts, bodies and the loop's entry are zero.
pub fn fresh_image(start: &Start) -> Vec<u8> {
    let silence = vec![0; start.total as usize];
    let (mut blocks, _) = blocks_of(start, &[&silence]);
    for block in &mut blocks {
        block.predictor_and_scale = 0;
        block.last_samples = [0; 2];
        block.bytes.fill(0);
    }
    let looped = start.looped.map_or(0, |_| ENTRY);
    image_of_blocks([0; 4], start, &blocks, &vec![0; looped])
}

/// Encodes pieces that start at frame `first` of a clip: each block with the number of its first frame, and the history after them.
/// A block that is begun already is filled up first.
pub fn encode_from(
    state: &State,
    first: usize,
    pieces: &[&[i16]],
) -> (Vec<(usize, Block)>, History) {
    let start = Start {
        total: state.total,
        rate: state.rate,
        size: state.block,
        gain: state.gain,
        coefficients: state.coefficients,
        history: state.history,
        looped: None,
    };
    let per_block = state.block as usize / FRAME;
    let lead = (per_block - first % per_block) % per_block;
    let (begun, rest) = split(pieces, 14 * lead);
    let (before, history) = blocks_of(&start, &begun);
    let (after, history) = blocks_of(&Start { history, ..start }, &rest);
    let starts = (first + lead..).step_by(per_block);
    let placed = before.into_iter().map(|block| (first, block)).chain(starts.zip(after));
    (placed.collect(), history)
}

/// Pieces cut in two after some samples.
pub fn split<'s>(pieces: &[&'s [i16]], mut count: usize) -> (Vec<&'s [i16]>, Vec<&'s [i16]>) {
    let (mut before, mut after) = (vec![], vec![]);
    for piece in pieces {
        if count == 0 {
            after.push(*piece);
            continue;
        }
        let (first, second) = piece.split_at(count.min(piece.len()));
        count -= first.len();
        before.push(first);
        if !second.is_empty() {
            after.push(second);
        }
    }
    (before, after)
}

/// Where the entry of a loop stands: "after the K others".
fn loop_place(state: &State) -> usize {
    HEAD + ENTRY * block_count(state.total, state.block) as usize
}

/// Writes blocks to their places: their bodies, and the contexts of those that start a block of the clip.
pub fn write_blocks(image: &mut [u8], state: &State, blocks: &[(usize, Block)]) {
    let looped = state.looped.looped().map_or(0, |_| ENTRY);
    let bodies = loop_place(state) + looped;
    let per_block = state.block as usize / FRAME;
    for (first, block) in blocks {
        let place = bodies + FRAME * first;
        image[place..place + block.bytes.len()].copy_from_slice(&block.bytes);
        if first % per_block == 0 {
            let place = HEAD + ENTRY * (first / per_block) + 8;
            image[place..place + 6].copy_from_slice(&context_bytes(block.context()));
        }
    }
}

/// Writes what closing writes after the last frame: the loop's entry as the state has it, and the mark.
pub fn write_end(image: &mut [u8], state: &State) {
    let (place, entry) = (loop_place(state), loop_entry(state.looped, state.loop_context));
    image[place..place + entry.len()].copy_from_slice(&entry);
    image[..4].copy_from_slice(&MARK);
}
