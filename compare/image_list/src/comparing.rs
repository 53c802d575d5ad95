//! Two images compared, as change 7/13 of document 02 says and by their sound alone, read plainly; their blocks are played by the Rust.

use crate::reader::{Opened, Refused, open};
use clip_list::Loop;
use oracle::{Coefficients, FrameContext};

/// What counts of an image: "rate, gain, B, coefficients, every context and the loop", "besides the samples".
#[derive(Debug, PartialEq)]
pub struct Counted {
    rate: u32,
    gain: u16,
    block: u32,
    coefficients: Coefficients,
    contexts: Vec<FrameContext>,
    looped: Option<(Loop, FrameContext)>,
    samples: Vec<i16>,
}

/// A context without "the unused top bit of a header".
fn without_top_bit(context: FrameContext) -> FrameContext {
    FrameContext { predictor_and_scale: context.predictor_and_scale & !0x80, ..context }
}

impl Counted {
    /// What counts of an image that is accepted.
    fn of(opened: &Opened) -> Result<Self, Refused> {
        let contexts = opened.entries.iter().map(|entry| without_top_bit(entry.context));
        let looped = opened.looped.map(|entry| (entry.looped, without_top_bit(entry.context)));
        Ok(Self {
            rate: opened.rate,
            gain: opened.gain,
            block: opened.block,
            coefficients: opened.coefficients,
            contexts: contexts.collect(),
            looped,
            samples: opened.play_all(usize::MAX)?.0,
        })
    }

    /// How another image compares with this one.
    pub fn compare(&self, other: &Self) -> Sameness {
        Sameness { same: self == other, sounds_same: self.samples == other.samples }
    }
}

/// Whether two images are the same, and whether they have equally many samples and play the same ones.
#[derive(Debug, Clone, Copy, Default, PartialEq)]
pub struct Sameness {
    pub same: bool,
    pub sounds_same: bool,
}

/// An image that comparing accepts: it opens, and has no pair that 13 refuses.
fn accepted(image: &[u8]) -> Result<Opened<'_>, Refused> {
    let opened = open(image)?;
    opened.test_pairs()?;
    Ok(opened)
}

/// What counts of an image, or why comparing refuses it.
pub fn counted(image: &[u8]) -> Result<Counted, Refused> {
    Counted::of(&accepted(image)?)
}

/// Compares two images; the first is tested before the second.
pub fn sameness(first: &[u8], second: &[u8]) -> Result<Sameness, Refused> {
    let [first, second] = [accepted(first)?, accepted(second)?];
    Ok(Counted::of(&first)?.compare(&Counted::of(&second)?))
}

/// Whether two images are the same.
pub fn same(first: &[u8], second: &[u8]) -> Result<bool, Refused> {
    Ok(sameness(first, second)?.same)
}

/// Whether two images have equally many samples and play the same ones.
pub fn sounds_same(first: &[u8], second: &[u8]) -> Result<bool, Refused> {
    Ok(sameness(first, second)?.sounds_same)
}
