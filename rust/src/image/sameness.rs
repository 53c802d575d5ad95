//! Whether two images are the same, or sound the same.

use super::Image;
use crate::{Refusal, ffi};

impl Image<'_> {
    /// Whether the other image is the same: samples, rate, gain, block size, coefficients, contexts and loop, as [`same`] has it.
    pub fn same(&self, other: &Image) -> Result<bool, Refusal> {
        same(self.bytes, other.bytes)
    }

    /// Whether the other image has equally many samples and plays the same ones, as [`sounds_same`] has it.
    pub fn sounds_same(&self, other: &Image) -> Result<bool, Refusal> {
        sounds_same(self.bytes, other.bytes)
    }
}

/// Whether two images are the same: they have equally many samples and play the same ones, and rate, gain, block size, all sixteen coefficients,
/// the context of every block and the loop agree. Contexts agree where their headers do, the top bit apart, and both samples; loops where neither
/// image has one, or both have one with the same start, the same end and contexts that agree.
///
/// Not counted are the top bit of a header, which playing does not use (in a frame, in a block's entry, in the loop's), the spare nibble of the
/// last byte where the last frame has an odd count of samples, and bytes after the image. The header of a frame that does not begin a block counts
/// by the samples that it gives alone, unless the loop starts in that frame: the loop's context repeats it.
///
/// A refusal is of the first image if that one is refused, else of the second. Where it names a block ([`Refusal::block`]), it is of the first
/// unless that one opens.
///
/// ```
/// use doilycairn::{Coefficients, Encoder, History, Refusal, Start, same, sounds_same};
///
/// let clip = [0, 5, 9, 12, 14, 15, 15, 14, 12, 9, 5, 0, -5, -9, -12];
/// let encode = |rate, block_size| {
///     let (coefficients, history) = (Coefficients::measure(&clip)?, History::default());
///     let start = Start { total: 15, rate, block_size, gain: 0, coefficients, history, looped: None };
///     let mut encoder = Encoder::start(&start)?;
///     encoder.feed(&clip)?;
///     encoder.close()?;
///     Ok::<_, Refusal>(encoder.into_parts().1)
/// };
/// let image = encode(32_000, 8)?;
/// assert!(same(&image, &encode(32_000, 8)?)?);
/// for other in [encode(16_000, 8)?, encode(32_000, 16)?] {
///     assert!(!same(&image, &other)? && sounds_same(&image, &other)?);
/// }
/// # Ok::<(), Refusal>(())
/// ```
pub fn same(first: &[u8], second: &[u8]) -> Result<bool, Refusal> {
    answer(ffi::same(first, second))
}

/// Whether two images sound the same: they have equally many samples and play the same ones. Nothing else counts: not rate, gain, block size,
/// coefficients, contexts and loop, nor the bytes. Images that are the same by [`same`] sound the same.
///
/// Refused as [`same`] is.
pub fn sounds_same(first: &[u8], second: &[u8]) -> Result<bool, Refusal> {
    answer(ffi::sounds_same(first, second))
}

fn answer(comparison: ffi::Comparison) -> Result<bool, Refusal> {
    Refusal::check(comparison.code, comparison.entry)?;
    Ok(comparison.same)
}
