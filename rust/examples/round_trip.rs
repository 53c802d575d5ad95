//! A synthesised clip, from samples to an image and back: measured and fed in oddly cut pieces, closed, opened, played, compared.
//!
//! `cargo run --example round_trip [IMAGE]` also writes the image to a file.

use doilycairn::{Encoder, History, Image, Measure, Start, same, sounds_same};
use std::error::Error;

const RATE: u32 = 32_000;

/// A second of a chord that fades.
fn synthesise() -> Vec<i16> {
    let sample = |i: u32| {
        let t = f64::from(i) / f64::from(RATE);
        let chord = [220.0, 277.2, 329.6].map(|hertz| (std::f64::consts::TAU * hertz * t).sin());
        (chord.iter().sum::<f64>() * 9000.0 * (1.0 - t)) as i16
    };
    (0..RATE).map(sample).collect()
}

/// The clip's image in blocks of some size.
fn encode(clip: &[i16], block_size: u32) -> Result<Vec<u8>, Box<dyn Error>> {
    let mut measure = Measure::new();
    for piece in clip.chunks(997) {
        measure.process(piece)?;
    }
    let start = Start {
        total: clip.len().try_into()?,
        rate: RATE,
        block_size,
        gain: 0,
        coefficients: measure.coefficients()?,
        history: History::default(),
        looped: None,
    };
    let mut encoder = Encoder::start(&start)?;
    for piece in clip.chunks(1013) {
        encoder.feed(piece)?;
    }
    encoder.close()?;
    Ok(encoder.into_parts().1)
}

fn main() -> Result<(), Box<dyn Error>> {
    let clip = synthesise();
    let bytes = encode(&clip, 4096)?;
    let image = Image::open(&bytes)?;
    println!("{} samples, {} bytes, {} blocks", clip.len(), bytes.len(), image.head().blocks);

    let distance = |(a, b): (&i16, i16)| (i32::from(*a) - i32::from(b)).abs();
    let most = clip.iter().zip(image.samples()?).map(distance).max();
    println!("played within {} of the original", most.unwrap_or(0));
    let smaller = encode(&clip, 256)?;
    println!("the same once more: {}", same(&bytes, &encode(&clip, 4096)?)?);
    println!("the same in smaller blocks: {}", same(&bytes, &smaller)?);
    println!("the same sound in smaller blocks: {}", sounds_same(&bytes, &smaller)?);

    let refusal = Image::open(&bytes[1..]).unwrap_err();
    println!("without its first byte: {refusal}");
    if let Some(path) = std::env::args_os().nth(1) {
        std::fs::write(path, &bytes)?;
    }
    Ok(())
}
