//! The parts of the job, each timed on both sides.

use crate::sides::{BLOCK, library, rust};
use crate::timing::{Times, alternate, timed};
use doilycairn::Calculator;
use oracle::Block;
use unplug::audio::format::adpcm::CoefficientCalculator;

/// A part of the job.
#[derive(Clone, Copy, PartialEq, Eq, Debug)]
pub enum Part {
    Process,
    Finish,
    Encode,
    Decode,
    Whole,
}

impl Part {
    pub const ALL: [Self; 5] =
        [Self::Process, Self::Finish, Self::Encode, Self::Decode, Self::Whole];

    /// What the table says.
    pub fn title(self) -> &'static str {
        match self {
            Self::Process => "Measuring: records of a clip (`process`)",
            Self::Finish => "Measuring: coefficients of the records (`finish`)",
            Self::Encode => "Encoding: coefficients given (`start`, `feed`, `close`)",
            Self::Decode => "Decoding: all blocks (`open`, `play_all`)",
            Self::Whole => "Whole job: measure, start, feed, close",
        }
    }
}

/// A clip, and what both sides made of it.
pub struct Case {
    clip: Vec<i16>,
    coefficients: [i16; 16],
    calculator: Calculator,
    store: Vec<f64>,
    image: Vec<u8>,
    rust_calculator: CoefficientCalculator,
    blocks: Vec<Block>,
}

impl Case {
    /// Runs all parts once on both sides. Panics where their results differ.
    pub fn new(clip: Vec<i16>) -> Self {
        let (calculator, mut store) = library::process(&clip);
        let coefficients = library::finish(calculator, &mut store);
        let rust_calculator = rust::process(&clip);
        assert_eq!(rust::finish(rust_calculator.clone()), coefficients, "coefficients");
        let (image, blocks) = encode_both(&clip, &coefficients);
        assert!(rust::decode(&blocks).concat() == library::decode(&image), "samples");
        Self { clip, coefficients, calculator, store, image, rust_calculator, blocks }
    }

    /// Times a part.
    pub fn times(&mut self, part: Part, rounds: usize) -> Times {
        let Self { clip, coefficients, calculator, store, image, rust_calculator, blocks } = self;
        let (clip, coefficients, calculator) = (&clip[..], &*coefficients, *calculator);
        match part {
            Part::Process => alternate(rounds, &mut || timed(clip, rust::process), &mut || {
                timed(clip, library::process)
            }),
            Part::Finish => {
                alternate(rounds, &mut || timed(rust_calculator.clone(), rust::finish), &mut || {
                    timed(&mut store[..], |store| library::finish(calculator, store))
                })
            }
            Part::Encode => encode_times(clip, coefficients, rounds),
            Part::Decode => {
                alternate(rounds, &mut || timed(&blocks[..], rust::decode), &mut || {
                    timed(&image[..], library::decode)
                })
            }
            Part::Whole => alternate(rounds, &mut || timed(clip, rust::whole), &mut || {
                timed(clip, library::whole)
            }),
        }
    }
}

/// The image and the blocks of a clip. Panics where their bodies differ.
pub fn encode_both(clip: &[i16], coefficients: &[i16; 16]) -> (Vec<u8>, Vec<Block>) {
    let image = library::encode(clip, coefficients, BLOCK);
    let blocks = rust::encode(clip, coefficients, BLOCK);
    let bodies: Vec<u8> = blocks.iter().flat_map(|block| &block.bytes).copied().collect();
    assert!(bodies == image[56 + 16 * blocks.len()..], "bodies");
    (image, blocks)
}

/// Times encoding.
pub fn encode_times(clip: &[i16], coefficients: &[i16; 16], rounds: usize) -> Times {
    alternate(
        rounds,
        &mut || timed(clip, |clip| rust::encode(clip, coefficients, BLOCK)),
        &mut || timed(clip, |clip| library::encode(clip, coefficients, BLOCK)),
    )
}

#[cfg(test)]
mod tests {
    use super::*;
    use crate::sounds::Sound;

    #[test]
    fn both_sides_agree_and_take_time() {
        for sound in Sound::ALL {
            for count in [1, 13, 14, 15, 1_400, 14_337] {
                let mut case = Case::new(sound.clip(count));
                for part in Part::ALL {
                    let times = case.times(part, 1);
                    assert!(times.rust > 0.0 && times.library > 0.0 && times.ratio > 0.0);
                }
            }
        }
    }
}
