//! A .dsp file for another decoder: `dsp_genh SEED OUT.genh OUT.raw` encodes a clip, exports it, puts what the file holds into a GENH container,
//! and writes what the library plays of the file, imported in blocks of another size, 16 bits little-endian. The coefficients are multiples of
//! 2048 and the starting history is zero.

use clip_list::with_random_loop;
use doilycairn::{Coefficients, Encoder, History, Image, Loop, Start, from_dsp};
use dsp_list::{HEADER, Header};
use oracle::random::Random;
use std::error::Error;

/// Where the coefficients and the bodies stand in the container.
const PAIRS: u32 = 0x40;
const BODIES: u32 = 0x80;

/// Eight pairs of multiples of 2048, with |c0| + |c1| up to 61,440.
fn coefficients(random: &mut Random) -> Coefficients {
    let most = 1 + random.below(15) as i32;
    Coefficients(std::array::from_fn(|_| (2048 * random.within(most)) as i16))
}

/// A clip, half of the time with a loop, and its samples.
fn clip(random: &mut Random) -> (Start, Vec<i16>) {
    let size = 8 + random.below(1000) as u32;
    let len = 1 + random.below(5000);
    let samples = random.clip(len);
    let start = clip_list::Start {
        total: len as u32,
        rate: 1 + random.below(96_000) as u32,
        size,
        gain: 0,
        coefficients: coefficients(random).0,
        history: [0; 2],
        looped: None,
    };
    let clip_list::Start { total, rate, size, gain, coefficients, looped, .. } =
        with_random_loop(random, start);
    let looped = looped.map(|looped| Loop { start: looped.start, end: looped.end });
    let (coefficients, history) = (Coefficients(coefficients), History::default());
    (Start { total, rate, block_size: size, gain, coefficients, history, looped }, samples)
}

/// The clip's file, as the library exports it.
fn file(start: &Start, samples: &[i16]) -> Result<Vec<u8>, Box<dyn Error>> {
    let mut encoder = Encoder::start(start)?;
    encoder.feed(samples)?;
    encoder.close()?;
    Ok(Image::open(encoder.image())?.to_dsp()?)
}

/// Count, rate, coefficients and bodies of a file in a mono container, the bodies filled up to whole frames.
fn container(file: &[u8]) -> Vec<u8> {
    let Header { total, rate, .. } = Header::read(file);
    let mut container = b"GENH".to_vec();
    for field in [1, 8, rate, u32::MAX, total, 12, BODIES, BODIES, PAIRS, PAIRS] {
        container.extend(field.to_le_bytes());
    }
    container.resize(PAIRS as usize, 0);
    container.extend(&file[28..60]);
    container.resize(BODIES as usize, 0);
    container.extend(&file[HEADER..]);
    container.resize(BODIES as usize + (file.len() - HEADER).next_multiple_of(8), 0);
    container
}

/// What the library plays of a file.
fn played(file: &[u8], size: u32) -> Result<Vec<u8>, Box<dyn Error>> {
    let samples = Image::open(&from_dsp(file, size)?)?.play()?;
    Ok(samples.iter().flat_map(|sample| sample.to_le_bytes()).collect())
}

fn main() -> Result<(), Box<dyn Error>> {
    let words: Vec<_> = std::env::args().skip(1).collect();
    let [seed, genh, raw] = &words[..] else { return Err("dsp_genh SEED OUT.genh OUT.raw".into()) };
    let mut random = Random::new(seed.parse()?);
    let (start, samples) = clip(&mut random);
    let file = file(&start, &samples)?;
    std::fs::write(genh, container(&file))?;
    std::fs::write(raw, played(&file, 8 + random.below(1000) as u32)?)?;
    Ok(())
}
