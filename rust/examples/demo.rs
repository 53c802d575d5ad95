//! A clip from samples to an image and back, in oddly cut pieces: the same as in one piece, and within the proved distance.
//!
//! `cargo run --example demo FOLDER` leaves clip.wav and the images clip.dspc and altered.dspc in the folder.

use doilycairn::{
    Coefficients, Encoder, History, Image, Measure, Start, same, sounds_same, store_size,
};
use std::error::Error;
use std::path::Path;

type Answer<T> = Result<T, Box<dyn Error>>;

const RATE: u32 = 32_000;
const BLOCK_SIZE: u32 = 4096;

/// Lengths of pieces, in turn.
const PIECES: [usize; 7] = [1, 13, 14, 15, 997, 0, 28];

/// Ends the program where something is not as it should be.
fn ensure(fine: bool, what: &str) -> Answer<()> {
    if fine { Ok(()) } else { Err(format!("not as it should be: {what}").into()) }
}

// ---- the clip

/// Two seconds: a plucked note every half second, each with a strike of noise.
fn synthesise() -> Vec<i16> {
    let mut seed = 1_u64;
    let mut noise = || {
        seed = seed.wrapping_mul(6_364_136_223_846_793_005).wrapping_add(1);
        (seed >> 40) as f64 / f64::from(1 << 23) - 1.0
    };
    let mut sample = |i: u32| {
        let t = f64::from(i % (RATE / 2)) / f64::from(RATE);
        let hertz = [220.0, 277.2, 329.6, 440.0][(i / (RATE / 2)) as usize % 4];
        let tone =
            |k: f64| (std::f64::consts::TAU * hertz * k * t).sin() * (-6.0 * k * t).exp() / k;
        let strike = noise() * (-200.0 * t).exp();
        (12_000.0 * (tone(1.0) + tone(2.0) + tone(3.0)) * (1.0 - (-900.0 * t).exp())
            + 6000.0 * strike) as i16
    };
    (0..2 * RATE).map(&mut sample).collect()
}

/// The clip in pieces of odd lengths.
fn pieces(clip: &[i16]) -> Vec<&[i16]> {
    let (mut rest, mut pieces) = (clip, vec![]);
    for length in PIECES.iter().cycle() {
        let (piece, after) = rest.split_at((*length).min(rest.len()));
        pieces.push(piece);
        rest = after;
        if rest.is_empty() {
            break;
        }
    }
    pieces
}

// ---- in pieces

/// The coefficients, measured in pieces; in the middle a piece that the store has no room for.
fn measure(clip: &[i16]) -> Answer<Coefficients> {
    let mut store = vec![0.0; store_size(clip.len() as u32)];
    let mut measure = Measure::with_store(&mut store[..]);
    let pieces = pieces(clip);
    for (i, piece) in pieces.iter().enumerate() {
        if i == pieces.len() / 2 {
            let before = measure.calculator();
            let refusal = measure.process(&vec![1; clip.len()]).err().ok_or("a refusal")?;
            ensure(measure.calculator() == before, "a refused measuring changes nothing")?;
            println!("  refused on the way: {refusal}");
        }
        measure.process(piece)?;
    }
    Ok(measure.coefficients()?)
}

/// The image, fed in pieces; in the middle a piece that is too long and a closing that is too early.
fn encode(clip: &[i16], start: &Start) -> Answer<Vec<u8>> {
    let mut encoder = Encoder::start(start)?;
    let pieces = pieces(clip);
    for (i, piece) in pieces.iter().enumerate() {
        if i == pieces.len() / 2 {
            let before = (encoder.state(), encoder.image().to_vec());
            for refused in [encoder.feed(clip), encoder.close()] {
                let refusal = refused.err().ok_or("a refusal")?;
                println!("  refused on the way: {refusal}");
            }
            let after = (encoder.state(), encoder.image().to_vec());
            ensure(before == after, "a refused call changes neither state nor image")?;
        }
        encoder.feed(piece)?;
    }
    encoder.close()?;
    Ok(encoder.into_parts().1)
}

/// The image in one piece.
fn encode_whole(clip: &[i16], start: &Start) -> Answer<Vec<u8>> {
    let mut encoder = Encoder::start(start)?;
    encoder.feed(clip)?;
    encoder.close()?;
    Ok(encoder.into_parts().1)
}

// ---- distances

/// The frames of one exponent: how many, and the largest distance of a sample from its original.
#[derive(Clone, Copy, Default)]
struct Reached {
    frames: u32,
    distance: u16,
}

/// By exponent, what is reached.
fn distances(clip: &[i16], image: &Image) -> Answer<[Reached; 16]> {
    let played = image.play()?;
    ensure(played.len() == clip.len(), "as many samples are played as were fed")?;
    let headers = image.blocks().flat_map(|block| block.bytes.iter().step_by(8));
    let mut reached = [Reached::default(); 16];
    for ((header, original), played) in headers.zip(clip.chunks(14)).zip(played.chunks(14)) {
        let reached = &mut reached[usize::from(header & 15)];
        reached.frames += 1;
        for (a, b) in original.iter().zip(played) {
            reached.distance = reached.distance.max(a.abs_diff(*b));
        }
    }
    Ok(reached)
}

/// The table of distances: each within its bound.
fn show_distances(reached: &[Reached; 16]) -> Answer<()> {
    println!("  exponent  frames  proved within  reached");
    for (exponent, reached) in reached.iter().enumerate().filter(|(_, reached)| reached.frames > 0)
    {
        let (frames, distance) = (reached.frames, reached.distance);
        let bound = (exponent < 12).then(|| (3_u32 << exponent).div_ceil(2));
        let shown = bound.map_or("no bound".into(), |bound| bound.to_string());
        println!("  {exponent:>8}  {frames:>6}  {shown:>13}  {distance:>7}");
        ensure(
            bound.is_none_or(|bound| u32::from(distance) <= bound),
            "a distance within its bound",
        )?;
    }
    Ok(())
}

// ---- files

/// A WAV file of one channel.
fn wav(clip: &[i16]) -> Vec<u8> {
    let bytes = 2 * clip.len() as u32;
    let mut file =
        [b"RIFF", &(36 + bytes).to_le_bytes()[..], b"WAVEfmt ", &16_u32.to_le_bytes()].concat();
    file.extend([1_u16, 1].iter().flat_map(|field| field.to_le_bytes()));
    file.extend([RATE, 2 * RATE].iter().flat_map(|field| field.to_le_bytes()));
    file.extend([2_u16, 16].iter().flat_map(|field| field.to_le_bytes()));
    file.extend([b"data", &bytes.to_le_bytes()[..]].concat());
    file.extend(clip.iter().flat_map(|sample| sample.to_le_bytes()));
    file
}

/// Compares the image with that of one piece, with one in other blocks and with one that is altered; gives the last.
fn compare(clip: &[i16], start: &Start, image: &[u8]) -> Answer<Vec<u8>> {
    ensure(same(image, &encode_whole(clip, start)?)?, "in one piece, the same")?;
    println!("  with that of one piece: the same");
    let fine = encode_whole(clip, &Start { block_size: 256, ..*start })?;
    ensure(!same(image, &fine)?, "other blocks, another image")?;
    ensure(sounds_same(image, &fine)?, "other blocks, the same sound")?;
    println!("  in blocks of 256 bytes, {} bytes: not the same, but the same sound", fine.len());
    let mut altered = image.to_vec();
    altered[image.len() / 16 * 8 + 3] ^= 0x70;
    ensure(!same(image, &altered)?, "one byte altered, another image")?;
    ensure(!sounds_same(image, &altered)?, "one byte altered, another sound")?;
    println!("  with one byte altered: not the same, and another sound");
    Ok(altered)
}

fn main() -> Answer<()> {
    let folder = std::env::args_os().nth(1).ok_or("the folder for the files is missing")?;
    let clip = synthesise();
    let count = pieces(&clip).len();
    println!("A clip of {} samples, in {count} pieces of {PIECES:?} samples in turn.", clip.len());

    println!("Measured:");
    let coefficients = measure(&clip)?;
    ensure(
        coefficients == Coefficients::measure(&clip)?,
        "the coefficients are those of one piece",
    )?;
    println!("  the coefficients are those of one piece");

    println!("Encoded, in blocks of {BLOCK_SIZE} bytes:");
    let start = Start {
        total: clip.len() as u32,
        rate: RATE,
        block_size: BLOCK_SIZE,
        gain: 0,
        coefficients,
        history: History::default(),
        looped: None,
    };
    let bytes = encode(&clip, &start)?;
    ensure(bytes == encode_whole(&clip, &start)?, "the image is that of one piece")?;
    println!("  the image is that of one piece, byte for byte: {} bytes", bytes.len());

    println!("Compared:");
    let altered = compare(&clip, &start, &bytes)?;

    println!("Decoded, {} samples, and compared with the clip:", clip.len());
    show_distances(&distances(&clip, &Image::open(&bytes)?)?)?;

    let file = |name| Path::new(&folder).join(name);
    std::fs::write(file("clip.wav"), wav(&clip))?;
    std::fs::write(file("clip.dspc"), &bytes)?;
    std::fs::write(file("altered.dspc"), &altered)?;
    Ok(())
}
