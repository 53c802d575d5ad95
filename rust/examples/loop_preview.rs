//! A loop preview: an image's samples up to its loop, then the loop again and again; at once, or into buffers of any length.

use doilycairn::{Coefficients, Encoder, History, Image, Loop, Refusal, Start};
use std::ops::Range;

/// What is heard of a clip with so many turns of its stored loop; of a clip without a loop, all of it.
pub fn heard(image: &Image, turns: u32) -> Result<Vec<i16>, Refusal> {
    let before = image.looped().map_or(image.head().total, |looped| looped.start);
    let mut samples = image.part(0..before)?;
    samples.extend(image.play_loop(turns)?);
    Ok(samples)
}

/// Fills a buffer with what is heard from sample `at` on, and gives the sample to go on with; from the loop's end on the loop begins anew.
/// The loop is any part of the clip, stored or not yet. Panics where it has no sample.
pub fn fill(
    image: &Image,
    looped: &Range<u32>,
    mut at: u32,
    mut out: &mut [i16],
) -> Result<u32, Refusal> {
    assert!(!looped.is_empty(), "the loop has no sample");
    while !out.is_empty() {
        if at >= looped.end {
            at = looped.start;
        }
        let room = out.len().min((looped.end - at) as usize);
        let part = image.play_from(at, &mut out[..room])?;
        out = &mut out[part.samples..];
        at += part.samples as u32;
    }
    Ok(at)
}

/// A loop over the edge of two blocks, which have 14 samples each.
pub fn main() -> Result<(), Refusal> {
    let start = Start {
        total: 28,
        rate: 32_000,
        block_size: 8,
        gain: 0,
        coefficients: Coefficients([0; 16]),
        history: History::default(),
        looped: Some(Loop { start: 11, end: 17 }),
    };
    let mut encoder = Encoder::start(&start)?;
    encoder.feed(&std::array::from_fn::<i16, 28, _>(|i| i as i16 % 8))?;
    encoder.close()?;

    let image = Image::open(encoder.image())?;
    let (whole, heard) = (image.play()?, heard(&image, 3)?);
    assert_eq!(heard, [&whole[..17], &whole[11..17], &whole[11..17]].concat());

    let (mut buffers, mut at) = ([[0; 5]; 4], 0);
    for buffer in &mut buffers {
        at = fill(&image, &(11..17), at, buffer)?;
    }
    assert_eq!((buffers.as_flattened(), at), (&heard[..20], 14));
    println!("{heard:?}, and in small buffers so far up to sample {at}");
    Ok(())
}
