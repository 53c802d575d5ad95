//! Starting, feeding in random cuts and closing a clip both ways.

use crate::convert::{library_start, number, state};
use crate::tally::Tally;
use clip_list::{Start, State, image_of, image_size, with_random_loop};
use doilycairn::{EncoderState, Refusal};
use image_list::{reader, table};
use oracle::random::Random;
use oracle::{FrameContext, encode, measure};

/// What a clip is started with: mostly the Rust's coefficients, a third of the time an older bank; half of the time a loop.
pub fn random_start(random: &mut Random, samples: &[i16]) -> Start {
    let coefficients = match random.below(12) {
        0 => random.coefficients(),
        1..5 => random.older_bank(),
        _ => measure(&[samples]).coefficients,
    };
    let history = match random.below(2) {
        0 => [0; 2],
        _ => [random.sample(), random.sample()],
    };
    let start = Start {
        total: samples.len() as u32,
        rate: 1 + random.bits() as u32 / 2,
        size: size(random),
        gain: random.bits() as u16,
        coefficients,
        history,
        looped: None,
    };
    if samples.is_empty() { start } else { with_random_loop(random, start) }
}

/// A block size.
pub fn size(random: &mut Random) -> u32 {
    let most = [8, 16, 64, 64, 400, 65_529][random.below(6)];
    8 + random.below(most) as u32
}

/// What an image buffer holds before a call.
fn buffer(len: usize) -> Vec<u8> {
    (0..len).map(|place| (place % 251) as u8).collect()
}

/// Starts, feeds in random cuts and closes; gives the image that it should be, with bytes after it.
pub fn encoded(random: &mut Random, start: &Start, samples: &[i16], tally: &mut Tally) -> Vec<u8> {
    let pieces = random.cut(samples);
    let spare = random.below_one(&[1, 40]);
    let input = (start, &pieces);
    if samples.is_empty() {
        let library = encode_in(start, &pieces, &mut buffer(100));
        tally.compare("clip", &input, library.map_err(number), Err(4));
        return vec![];
    }
    let size = start.image_size() as usize;
    compare_sizes(start, tally);
    let mut image = buffer(size + spare);
    let mut right = image.clone();
    let library = encode_in(start, &pieces, &mut image).map_err(number);
    right[..size].copy_from_slice(&image_of(start, &pieces));
    count_frames(start, &right[..size], tally);
    let state = State { loop_context: loop_context(&right), ..right_state(start, &pieces) };
    tally.compare("clip", &input, library, Ok(state));
    tally.compare("image", &input, image[..size].to_vec(), right[..size].to_vec());
    tally.compare("image and after it", &input, image, right.clone());
    right
}

/// S of a clip without a loop, with one, and of this one.
pub fn compare_sizes(start: &Start, tally: &mut Tally) {
    let (total, size) = (start.total, start.size);
    let right = image_size(total, start.block()) as usize;
    let library = doilycairn::image_size(total, size);
    tally.compare("image_size", start, library.ok_or(0), Ok(right));
    let library = doilycairn::loop_image_size(total, size);
    tally.compare("loop_image_size", start, library.ok_or(0), Ok(right + 16));
    let library = library_start(start).image_size();
    let right = start.image_size() as usize;
    tally.compare("Start::image_size", start, library.ok_or(0), Ok(right));
}

/// The context of an image's loop; zeros where there is none.
fn loop_context(image: &[u8]) -> FrameContext {
    let looped = reader::open(image).ok().and_then(|opened| opened.looped);
    looped.map_or(FrameContext::default(), |entry| entry.context)
}

/// Counts the frames of an image's bodies, of eight bytes each but for the last.
fn count_frames(start: &Start, image: &[u8], tally: &mut Tally) {
    for frame in image[table(image)..].chunks(8) {
        tally.frames.count(frame[0], &start.coefficients);
    }
}

/// A clip from start to close.
pub fn encode_in(start: &Start, pieces: &[&[i16]], image: &mut [u8]) -> Result<State, Refusal> {
    let mut now = EncoderState::start(&library_start(start), image)?;
    for piece in pieces {
        now = now.feed(piece, image)?;
    }
    Ok(state(&now.close(image)?))
}

/// The state of a closed clip, but for the context of its loop.
fn right_state(start: &Start, pieces: &[&[i16]]) -> State {
    let Start { rate, size, gain, ref coefficients, history, .. } = *start;
    let clip = encode(pieces, rate, size as usize, coefficients, gain, history).unwrap();
    State {
        fed: start.total,
        history: clip.history,
        passes: clip.passes as u32,
        closed: true,
        ..start.state()
    }
}
