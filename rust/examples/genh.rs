//! A clip for another decoder: `cargo run --example genh SEED OUT.genh OUT.raw` encodes pseudo-random sound with coefficients that are multiples
//! of 2048, from a history of zeros, and writes its bodies in a GENH container and what this library plays of them, 16 bits little-endian.

use doilycairn::{Coefficients, Encoder, History, Image, Start};
use std::error::Error;

/// Numbers that follow from a seed (SplitMix64).
struct Random(u64);

impl Random {
    fn next(&mut self) -> u64 {
        self.0 = self.0.wrapping_add(0x9e37_79b9_7f4a_7c15);
        let z = (self.0 ^ (self.0 >> 30)).wrapping_mul(0xbf58_476d_1ce4_e5b9);
        let z = (z ^ (z >> 27)).wrapping_mul(0x94d0_49bb_1331_11eb);
        z ^ (z >> 31)
    }

    fn below(&mut self, count: u64) -> u64 {
        self.next() % count
    }
}

/// Noise and steps of changing loudness.
fn sound(random: &mut Random, len: usize) -> Vec<i16> {
    let mut clip = Vec::with_capacity(len);
    let mut level = 0i16;
    for i in 0..len {
        if i % 97 == 0 {
            level = (random.next() as i16) >> random.below(15);
        }
        let noise = (random.next() as i16) >> (4 + random.below(12));
        clip.push(level.saturating_add(noise));
    }
    clip
}

/// Eight pairs of multiples of 2048: small ones, or large ones up to 30720, with |c0| + |c1| up to 61440.
fn coefficients(random: &mut Random) -> Coefficients {
    let most = 1 + random.below(15);
    Coefficients(std::array::from_fn(|_| (random.below(2 * most + 1) as i16 - most as i16) * 2048))
}

/// A mono GENH file: its fields, the coefficients, the bodies filled up to whole frames.
fn container(coefficients: &Coefficients, rate: u32, samples: u32, bodies: &[u8]) -> Vec<u8> {
    const START: u32 = 0x80;
    let fields = [1, 8, rate, u32::MAX, samples, 12, START, START, 0x40, 0x40, 0, 0, 0, 0];
    let mut file = b"GENH".to_vec();
    file.extend(fields.iter().flat_map(|field| field.to_le_bytes()));
    file.resize(0x40, 0);
    file.extend(coefficients.0.iter().flat_map(|c| c.to_be_bytes()));
    file.resize(START as usize, 0);
    file.extend(bodies);
    file.resize(START as usize + bodies.len().next_multiple_of(8), 0);
    file
}

fn main() -> Result<(), Box<dyn Error>> {
    let words: Vec<String> = std::env::args().skip(1).collect();
    let [seed, genh, raw] = &words[..] else { return Err("SEED OUT.genh OUT.raw".into()) };
    let mut random = Random(seed.parse()?);
    let len = 1 + random.below(5000) as usize;
    let clip = sound(&mut random, len);
    let start = Start {
        total: len as u32,
        rate: 32_000,
        block_size: 8 + random.below(1000) as u32,
        gain: 0,
        coefficients: coefficients(&mut random),
        history: History::default(),
        looped: None,
    };
    let mut encoder = Encoder::start(&start)?;
    encoder.feed(&clip)?;
    encoder.close()?;
    let bytes = encoder.into_parts().1;
    let image = Image::open(&bytes)?;
    let bodies: Vec<u8> = image.blocks().flat_map(|block| block.bytes).copied().collect();
    std::fs::write(genh, container(&start.coefficients, start.rate, start.total, &bodies))?;
    let played: Vec<u8> = image.play()?.iter().flat_map(|sample| sample.to_le_bytes()).collect();
    std::fs::write(raw, played)?;
    Ok(())
}
