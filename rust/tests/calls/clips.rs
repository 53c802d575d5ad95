//! Clips to test with.

use doilycairn::{Coefficients, Encoder, History, Loop, Start};

/// Pseudo-random numbers.
pub struct Random(pub u64);

impl Random {
    pub fn next(&mut self) -> u32 {
        self.0 = self.0.wrapping_mul(6_364_136_223_846_793_005).wrapping_add(1);
        (self.0 >> 33) as u32
    }
}

/// Noise of some loudness, in 16 bits.
pub fn noise(count: usize, loudness: i32, seed: u64) -> Vec<i16> {
    let mut random = Random(seed);
    let mut sample = || random.next() as i32 % (2 * loudness + 1) - loudness;
    (0..count).map(|_| sample() as i16).collect()
}

/// A tone with two overtones.
pub fn tone(count: usize) -> Vec<i16> {
    let wave = |t: f64| 9000.0 * t.sin() + 4000.0 * (2.7 * t).sin() + 900.0 * (9.1 * t).sin();
    (0..count).map(|i| wave(i as f64 * 0.043) as i16).collect()
}

/// The lowest and the highest sample in turn.
pub fn extremes(count: usize) -> Vec<i16> {
    (0..count).map(|i| if i / 3 % 2 == 0 { i16::MIN } else { i16::MAX }).collect()
}

/// Clips of many kinds and lengths, around multiples of 14.
pub fn clips() -> Vec<Vec<i16>> {
    let lengths = [1, 2, 13, 14, 15, 27, 28, 29, 111, 112, 113, 700, 1234];
    let kinds = |count: usize| {
        let (loud, soft) = (noise(count, 32_000, count as u64), noise(count, 3, 5));
        [vec![0; count], tone(count), extremes(count), loud, soft]
    };
    lengths.into_iter().flat_map(kinds).collect()
}

/// The start of a clip, with its own coefficients.
pub fn start_of(clip: &[i16], block_size: u32) -> Start {
    Start {
        total: clip.len() as u32,
        rate: 32_000,
        block_size,
        gain: 7,
        coefficients: Coefficients::measure(clip).unwrap(),
        history: History { newest: 100, older: -200 },
        looped: None,
    }
}

/// The same start with a loop.
pub fn with_loop(start: Start, (loop_start, loop_end): (u32, u32)) -> Start {
    Start { looped: Some(Loop { start: loop_start, end: loop_end }), ..start }
}

/// Every loop of a clip of so many samples.
pub fn every_loop(total: u32) -> impl Iterator<Item = (u32, u32)> {
    (0..total).flat_map(move |start| (start + 1..=total).map(move |end| (start, end)))
}

/// The closed image of a clip, fed in one piece.
pub fn encode_from(start: &Start, clip: &[i16]) -> Vec<u8> {
    let mut encoder = Encoder::start(start).unwrap();
    encoder.feed(clip).unwrap();
    encoder.close().unwrap();
    encoder.into_parts().1
}

/// The closed image of a clip with its own coefficients.
pub fn encode(clip: &[i16], block_size: u32) -> Vec<u8> {
    encode_from(&start_of(clip, block_size), clip)
}
