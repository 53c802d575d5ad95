//! A level meter over the first samples of a block.

use doilycairn::{Block, Coefficients, Encoder, History, Image, Refusal, Start, sample_to_address};

/// The peak of the first `count` samples of block `k`, which has at least that many.
pub fn peak(image: &Image, k: u32, count: u32) -> Result<u16, Refusal> {
    let block = image.block(k)?;
    // The address after the last of them, but not past the block's end: after a full frame a header would follow.
    let nibbles = (sample_to_address(count) as u32).min(block.nibbles);
    let mut samples = vec![0; count as usize];
    Block { nibbles, ..block }.play(&mut samples)?;
    Ok(samples.into_iter().map(i16::unsigned_abs).max().unwrap_or(0))
}

/// A ramp's meter.
pub fn main() -> Result<(), Refusal> {
    let start = Start {
        total: 28,
        rate: 32_000,
        block_size: 8,
        gain: 0,
        coefficients: Coefficients([0; 16]),
        history: History::default(),
        looped: None,
    };
    let mut encoder = Encoder::start(&start)?;
    encoder.feed(&std::array::from_fn::<i16, 28, _>(|i| 100 * i as i16))?;
    encoder.close()?;
    let image = Image::open(encoder.image())?;
    for count in [0, 1, 7, 14] {
        println!("first {count} of block 1: peak {}", peak(&image, 1, count)?);
    }
    Ok(())
}
