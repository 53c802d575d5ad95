//! The same work on both sides. What each needs to hold its results it allocates itself, within the time that is taken.

use doilycairn::{Calculator, Coefficients, EncoderState, History, Image, Start};
use oracle::Block;
use unplug::audio::format::adpcm::CoefficientCalculator;

pub const RATE: u32 = 32_000;

/// Bytes of a block, of 14,336 samples, where they are not told.
pub const BLOCK: u32 = 8_192;

/// The library: a store of 2 numbers a frame, an image of S bytes, an output of N samples.
pub mod library {
    use super::*;

    /// Records of a clip in a store.
    pub fn process(clip: &[i16]) -> (Calculator, Vec<f64>) {
        let mut store = vec![0.0; doilycairn::store_size(clip.len() as u32)];
        let calculator = Calculator::new().process(clip, &mut store).unwrap();
        (calculator, store)
    }

    /// Coefficients of measured records.
    pub fn finish(calculator: Calculator, store: &mut [f64]) -> [i16; 16] {
        calculator.finish(store).unwrap().0
    }

    /// The image of a clip.
    pub fn encode(clip: &[i16], coefficients: &[i16; 16], block_size: u32) -> Vec<u8> {
        let total = clip.len() as u32;
        let mut image = vec![0; doilycairn::image_size(total, block_size).unwrap()];
        let start = Start {
            total,
            rate: RATE,
            block_size,
            gain: 0,
            coefficients: Coefficients(*coefficients),
            history: History::default(),
            looped: None,
        };
        let encoder = EncoderState::start(&start, &mut image).unwrap();
        encoder.feed(clip, &mut image).unwrap().close(&mut image).unwrap();
        image
    }

    /// The samples of an image.
    pub fn decode(image: &[u8]) -> Vec<i16> {
        Image::open(image).unwrap().play().unwrap()
    }

    /// From a clip to its image.
    pub fn whole(clip: &[i16]) -> Vec<u8> {
        let (calculator, mut store) = process(clip);
        encode(clip, &finish(calculator, &mut store), BLOCK)
    }

    /// Samples from one on.
    pub fn play_from(image: &Image, first: usize, count: usize) -> Vec<i16> {
        let mut out = vec![0; count];
        image.play_from(first as u32, &mut out).unwrap();
        out
    }
}

/// The Rust: vectors of its own.
pub mod rust {
    use super::*;

    /// Records of a clip in a calculator.
    pub fn process(clip: &[i16]) -> CoefficientCalculator {
        let mut calculator = CoefficientCalculator::new();
        calculator.process(clip);
        calculator
    }

    /// Coefficients of measured records.
    pub fn finish(calculator: CoefficientCalculator) -> [i16; 16] {
        calculator.finish()
    }

    /// The blocks of a clip.
    pub fn encode(clip: &[i16], coefficients: &[i16; 16], block: u32) -> Vec<Block> {
        oracle::encode_blocks(&[clip], RATE, block as usize, coefficients, 0, [0, 0]).unwrap().0
    }

    /// The samples of each block.
    pub fn decode(blocks: &[Block]) -> Vec<Vec<i16>> {
        let play = |block: &Block| {
            oracle::decode(&block.bytes, block.len, &block.coefficients, block.context()).0
        };
        blocks.iter().map(play).collect()
    }

    /// From a clip to its blocks.
    pub fn whole(clip: &[i16]) -> Vec<Block> {
        encode(clip, &finish(process(clip)), BLOCK)
    }

    /// Samples from one on: each block that has some of them from its own context, up to the last one that is asked for.
    pub fn play_from(blocks: &[Block], first: usize, count: usize) -> Vec<i16> {
        let per_block = oracle::address_to_sample(blocks[0].len);
        let mut out = Vec::with_capacity(count);
        while out.len() < count {
            let (k, before) = ((first + out.len()) / per_block, (first + out.len()) % per_block);
            let end = (before + count - out.len()).min(per_block);
            let (block, len) = (&blocks[k], oracle::sample_to_address(end - 1) + 1);
            let played = oracle::decode(&block.bytes, len, &block.coefficients, block.context()).0;
            out.extend(&played[before..]);
        }
        out
    }
}
