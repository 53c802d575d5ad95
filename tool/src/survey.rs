//! Which pairs and exponents the frames of an image use.

use doilycairn::{Block, Image};

/// The headers of a block's frames, in turn.
pub fn headers<'a>(block: &Block<'a>) -> impl Iterator<Item = u8> + use<'a> {
    block.bytes.chunks(8).map(|frame| frame[0])
}

/// Counts of frames.
#[derive(Debug, Default, PartialEq, Eq)]
pub struct Survey {
    pub frames: u64,
    /// By the pair of coefficients.
    pub pairs: [u64; 8],
    /// By the exponent of the scale.
    pub exponents: [u64; 16],
}

impl Survey {
    pub fn of(image: &Image) -> Self {
        let mut survey = Self::default();
        for header in image.blocks().flat_map(|block| headers(&block)) {
            survey.frames += 1;
            survey.pairs[usize::from(header >> 4 & 7)] += 1;
            survey.exponents[usize::from(header & 15)] += 1;
        }
        survey
    }
}
