//! Joining two images without loss: the frames stay what they are, and play what they played.

use crate::failure::Failure;
use crate::image_bytes::{self, context_at};
use crate::join::Part;
use crate::text::count;
use doilycairn::{Block, FrameContext, Head, Refusal};

const AGAIN: &str = "; --reencode plays both clips and encodes them as one";

/// The image of the first clip's frames and then the second's.
pub fn join(parts: &[Part; 2], gain: Option<u16>) -> Result<Vec<u8>, Failure> {
    let [first, second] = parts;
    let (bodies, nibbles) = bodies(first, second)?;
    let gain = fitting_gain(first, second, gain)?;
    let shift = fitting_frames(first, second)?;
    let head = first.image.head();
    let contexts = contexts(first, second, shift).map_err(|r| Failure::refused(second.name, r))?;
    let total = head.total + second.image.head().total;
    Ok(image_bytes::image(&Head { total, gain, ..*head }, &contexts, None, &bodies, nibbles))
}

/// The bodies and their length in nibbles, as the library joins them; it refuses coefficients that differ.
fn bodies(first: &Part, second: &Part) -> Result<(Vec<u8>, u64), Failure> {
    let [a, b] = [first, second].map(|part| Block {
        bytes: part.bodies(),
        nibbles: part.image.blocks().map(|block| block.nibbles).sum(),
        coefficients: part.image.head().coefficients,
        context: FrameContext::default(),
    });
    let mut out = vec![0; a.bytes.len() + b.bytes.len()];
    match doilycairn::join(&a, &b, &mut out) {
        Ok(nibbles) => Ok((out, nibbles)),
        Err(refusal) => {
            let words = format!(" from those of {}{AGAIN}", first.name);
            Err(Failure::refused(second.name, refusal).with(words))
        }
    }
}

/// The gain of both, or the one asked for.
fn fitting_gain(first: &Part, second: &Part, gain: Option<u16>) -> Result<u16, Failure> {
    let [a, b] = [first, second].map(|part| part.image.head().gain);
    match gain {
        Some(gain) => Ok(gain),
        None if a == b => Ok(a),
        None => {
            let words = format!(
                "its gain is {}, and that of {} is {}: choose with --gain",
                count(b),
                first.name,
                count(a)
            );
            Err(Failure::input(second.name, words))
        }
    }
}

/// How many of the second clip's frames come before the first block that begins in it.
fn fitting_frames(first: &Part, second: &Part) -> Result<u32, Failure> {
    let [a, b] = [first, second].map(|part| part.image.head());
    if a.block != b.block {
        let words = format!(
            "blocks of {} bytes, and those of {} have {}",
            count(b.block),
            first.name,
            count(a.block)
        );
        return Err(Failure::input(second.name, words + AGAIN));
    }
    if a.total % 14 != 0 {
        let words = format!(
            "{} samples: its last frame is not full, and no frame can follow it",
            count(a.total)
        );
        return Err(Failure::input(first.name, words + FOLLOWED + AGAIN));
    }
    let frames = a.block / 8;
    let shift = (frames - a.total / 14 % frames) % frames;
    if shift > 0 {
        follows(first, second)?;
    }
    Ok(shift)
}

/// Tests that each block of the second clip goes on from where playing is then: it no longer begins a block.
fn follows(first: &Part, second: &Part) -> Result<(), Failure> {
    let mut before = first.end.last_samples;
    for (k, block) in second.image.blocks().enumerate() {
        let [newest, older] = block.context.last_samples;
        if [newest, older] != before {
            let words = format!(
                "its block {} begins after {newest},{older} and would come after {},{}, within a block of {} bytes{}{AGAIN}",
                count(k as u64),
                before[0],
                before[1],
                count(second.image.head().block),
                if k == 0 { HINT } else { "" }
            );
            return Err(Failure::input(second.name, words));
        }
        let played = block.play(&mut vec![0; block.sample_count()]);
        before = played.map_err(|r| Failure::refused(second.name, r))?.context.last_samples;
    }
    Ok(())
}

const FOLLOWED: &str =
    ": encode it with --pad-to-frame or --cut-to-frame, or trim it with --to at a multiple of 14";

const HINT: &str =
    ": encode it with --after the first clip, or let the first clip fill its last block";

/// The contexts of all blocks: the first clip's, and those of the second clip's frames that begin a block.
fn contexts(first: &Part, second: &Part, shift: u32) -> Result<Vec<FrameContext>, Refusal> {
    let mut contexts: Vec<_> = first.image.blocks().map(|block| block.context).collect();
    for block in second.image.blocks() {
        if (8 * shift as usize) < block.bytes.len() {
            contexts.push(context_at(&block, shift as usize)?);
        }
    }
    Ok(contexts)
}
