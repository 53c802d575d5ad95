//! A .dsp file, read by the documents' words alone: why it is not imported, if so, and else what its image is.

use crate::made::{Made, MadeLoop};
use doilycairn::{Coefficients, FrameContext, Refusal, play_bytes};

/// The number in some bytes.
fn number(file: &[u8], at: usize, count: usize) -> u64 {
    file[at..at + count].iter().fold(0, |number, byte| number << 8 | u64::from(*byte))
}

/// The body bytes that a sample count needs.
fn needed(total: u64) -> u64 {
    match total.div_ceil(14) {
        0 => 0,
        frames => 8 * (frames - 1) + 1 + (total - 14 * (frames - 1)).div_ceil(2),
    }
}

/// The sample at an address, of a clip of so many.
fn sample(address: u64, total: u64) -> Option<u64> {
    let (frame, place) = (address / 16, address % 16);
    place.checked_sub(2).map(|place| 14 * frame + place).filter(|sample| *sample < total)
}

/// The loop's first and last sample; none where an address is no sample's, or the last is below the first.
fn points(file: &[u8]) -> Option<(u64, u64)> {
    let total = number(file, 0, 4);
    let (first, last) = (sample(number(file, 16, 4), total)?, sample(number(file, 20, 4), total)?);
    (first <= last).then_some((first, last))
}

/// Whether the fields of the loop are as listed.
fn loop_fields(file: &[u8]) -> bool {
    match number(file, 12, 2) {
        0 => file[16..24].iter().chain(&file[68..74]).all(|byte| *byte == 0),
        1 => points(file).is_some_and(|(first, _)| {
            number(file, 68, 2) == u64::from(file[96 + first as usize / 14 * 8])
        }),
        _ => false,
    }
}

/// Whether every field is as listed, of a file that is long enough and has a sample.
fn fields(file: &[u8]) -> bool {
    let total = number(file, 0, 4);
    let frames = total.div_ceil(14);
    number(file, 4, 4) == total + 2 * frames
        && number(file, 14, 2) == 0
        && number(file, 24, 4) == 2
        && number(file, 62, 2) == u64::from(file[96])
        && file[74..96].iter().all(|byte| *byte == 0)
        && loop_fields(file)
}

fn coefficients(file: &[u8]) -> [i16; 16] {
    std::array::from_fn(|i| number(file, 28 + 2 * i, 2) as i16)
}

/// Why a file is not imported.
pub fn refusal(file: &[u8], block_size: u32) -> Option<Refusal> {
    if file.len() < 96 || (file.len() as u64) < 96 + needed(number(file, 0, 4)) {
        return Some(Refusal::FileTooShort);
    }
    let lowest = |pair: &[i16]| pair == [i16::MIN, i16::MIN];
    let tests = [
        (!(1..=14_680_064).contains(&number(file, 0, 4)), Refusal::BadSampleCount),
        (number(file, 8, 4) == 0, Refusal::RateZero),
        (!(8..=65_536).contains(&block_size), Refusal::BadBlockSize),
        (file.len() == 96 || !fields(file), Refusal::BadField),
        (coefficients(file).chunks(2).any(lowest), Refusal::LowestPair),
    ];
    tests.into_iter().find_map(|(is_bad, why)| is_bad.then_some(why))
}

/// A context's header, and its two samples, at a place of the header.
fn context(file: &[u8], at: usize) -> FrameContext {
    let [newest, older] = [2, 4].map(|more| number(file, at + more, 2) as i16);
    let predictor_and_scale = number(file, at, 2) as u16;
    FrameContext { predictor_and_scale, last_samples: [newest, older] }
}

/// The bodies, without what comes after them.
pub fn bodies(file: &[u8]) -> &[u8] {
    &file[96..][..needed(number(file, 0, 4)) as usize]
}

/// What the bodies play as one block up to an address, and the context then.
pub fn played(file: &[u8], nibbles: u64) -> (Vec<i16>, FrameContext) {
    let (coefficients, first) = (Coefficients(coefficients(file)), context(file, 62));
    if nibbles == 0 {
        return (vec![], first);
    }
    let mut out = vec![0; (nibbles / 16 * 14 + (nibbles % 16).saturating_sub(2)) as usize];
    let after = play_bytes(bodies(file), nibbles as u32, &coefficients, first, &mut out).unwrap();
    (out, after.context)
}

fn looped(file: &[u8]) -> Option<MadeLoop> {
    let points = (number(file, 12, 2) == 1).then(|| points(file)).flatten();
    points.map(|(first, last)| (first as u32, last as u32 + 1, context(file, 68).last_samples))
}

/// The image of a file that is imported.
pub fn image(file: &[u8], block_size: u32) -> Vec<u8> {
    let block = block_size / 8 * 8;
    let frames: Vec<[u8; 8]> = bodies(file)
        .chunks(8)
        .map(|frame| std::array::from_fn(|i| frame.get(i).copied().unwrap_or(0)))
        .collect();
    let blocks = (8 * frames.len()).div_ceil(block as usize) as u64;
    let history = |j: u64| played(file, 2 * u64::from(block) * j).1.last_samples;
    let made = Made {
        total: number(file, 0, 4) as u32,
        rate: number(file, 8, 4) as u32,
        block,
        gain: number(file, 60, 2) as u16,
        coefficients: coefficients(file),
        frames,
        histories: (0..blocks).map(history).collect(),
        looped: looped(file),
        after: vec![],
    };
    made.bytes()
}
