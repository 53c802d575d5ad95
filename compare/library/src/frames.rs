//! One frame.

use crate::convert::{history, library_history, library_start, number, state};
use crate::tally::Tally;
use clip_list::Start;
use doilycairn::{Coefficients, Encoder};
use frame_list::Case;
use oracle::random::Random;
use oracle::{History, encode_frame, encode_frame_bytes};

/// The frames of the fixed list.
pub fn fixed(tally: &mut Tally) {
    frame_list::cases().iter().for_each(|case| compare(case, tally));
}

/// A random frame.
pub fn random(random: &mut Random, tally: &mut Tally) {
    compare(&frame_list::random_frame(random), tally);
}

/// One-frame encoding, and for a short frame a clip that has it alone.
fn compare(case: &Case, tally: &mut Tally) {
    let right = right(case);
    if let Ok((bytes, ..)) = &right {
        tally.frames.count(bytes[0], &case.coefficients);
    }
    if case.count < case.samples.len() {
        tally.compare("short frame", case, short(case), right_short(case, &right));
    }
    tally.compare("encode_frame", case, library(case), right);
}

/// Bytes, passes, history.
type Frame = Result<([u8; 8], u32, History), u8>;

fn library(case: &Case) -> Frame {
    let coefficients = Coefficients(case.coefficients);
    doilycairn::encode_frame(library_history(case.history), &case.samples, &coefficients)
        .map(|frame| (frame.bytes, frame.passes, history(frame.history)))
        .map_err(number)
}

fn right(case: &Case) -> Frame {
    if case.is_refused() {
        return Err(7);
    }
    let (bytes, passes, history) = encode_frame(case.history, &case.samples, &case.coefficients);
    Ok((bytes.try_into().unwrap(), passes, history))
}

/// The body, passes and history of a clip that has the real samples alone.
type Short = Result<(Vec<u8>, u32, History), u8>;

fn short(case: &Case) -> Short {
    encode_short(case).map_err(number)
}

fn encode_short(case: &Case) -> Result<(Vec<u8>, u32, History), doilycairn::Refusal> {
    let start = Start {
        total: case.count as u32,
        rate: 1,
        size: 8,
        gain: 0,
        coefficients: case.coefficients,
        history: case.history,
        looped: None,
    };
    let mut encoder = Encoder::start(&library_start(&start))?;
    encoder.feed(&case.samples[..case.count])?;
    encoder.close()?;
    let after = state(&encoder.state());
    Ok((encoder.image()[72..].to_vec(), after.passes, after.history))
}

/// The history is the one after the real samples; the passes are those of the padded frame.
fn right_short(case: &Case, whole: &Frame) -> Short {
    let real = &case.samples[..case.count];
    whole.map(|(_, passes, _)| {
        let (bytes, history) = encode_frame_bytes(case.history, real, &case.coefficients);
        (bytes, passes, history)
    })
}
