//! Blocks without an image: addresses, playing bytes, joining.

use crate::{Coefficients, Refusal, ffi};

/// What playing carries from frame to frame.
#[repr(C)]
#[derive(Clone, Copy, Debug, Default, PartialEq, Eq, Hash)]
pub struct FrameContext {
    /// A frame's header: the pair's index × 16 + the scale's exponent.
    pub predictor_and_scale: u16,
    /// The newest sample, and the one before it.
    pub last_samples: [i16; 2],
}

/// What playing gives.
#[derive(Clone, Copy, Debug, PartialEq, Eq)]
pub struct Played {
    /// Samples written to the output, from its start on.
    pub samples: usize,
    /// The context after the last of them.
    pub context: FrameContext,
}

impl Played {
    pub(crate) fn answer(playback: ffi::Playback) -> Result<Self, Refusal> {
        Refusal::check(playback.code, playback.entry)?;
        Ok(Self { samples: playback.samples as usize, context: playback.context })
    }
}

/// A block: its bytes, and what playing them needs.
#[derive(Clone, Copy, Debug, PartialEq, Eq)]
pub struct Block<'a> {
    /// Its frames.
    pub bytes: &'a [u8],
    /// Its length in nibbles, headers counted.
    pub nibbles: u32,
    /// The coefficients.
    pub coefficients: Coefficients,
    /// The first frame's header, and the samples before it.
    pub context: FrameContext,
}

impl Block<'_> {
    /// How many samples it plays.
    pub fn sample_count(&self) -> usize {
        address_to_sample(self.nibbles) as usize
    }

    /// Plays it from its context.
    pub fn play(&self, out: &mut [i16]) -> Result<Played, Refusal> {
        play_bytes(self.bytes, self.nibbles, &self.coefficients, self.context, out)
    }
}

/// Plays the first `nibbles` nibbles of a block's bytes, headers counted.
///
/// ```
/// use doilycairn::{Coefficients, FrameContext, play_bytes};
///
/// let context = FrameContext { predictor_and_scale: 1, last_samples: [0; 2] };
/// let mut out = [0; 1];
/// let played = play_bytes(&[0x01, 0x40], 3, &Coefficients([0; 16]), context, &mut out)?;
/// assert_eq!((played.samples, out), (1, [8]));
/// # Ok::<(), doilycairn::Refusal>(())
/// ```
pub fn play_bytes(
    bytes: &[u8],
    nibbles: u32,
    coefficients: &Coefficients,
    context: FrameContext,
    out: &mut [i16],
) -> Result<Played, Refusal> {
    Played::answer(ffi::play_bytes(bytes, nibbles, coefficients, context, out))
}

/// Writes the first block's bytes and then the second's to `out`, and gives the sum of their lengths in nibbles.
///
/// ```
/// use doilycairn::{Block, Coefficients, FrameContext, join};
///
/// let block = |bytes| Block {
///     bytes,
///     nibbles: 16,
///     coefficients: Coefficients([0; 16]),
///     context: FrameContext::default(),
/// };
/// let mut out = [0; 16];
/// assert_eq!(join(&block(&[1; 8]), &block(&[2; 8]), &mut out)?, 32);
/// assert_eq!((out[7], out[8]), (1, 2));
/// # Ok::<(), doilycairn::Refusal>(())
/// ```
pub fn join(first: &Block, second: &Block, out: &mut [u8]) -> Result<u64, Refusal> {
    let joining = ffi::join(first, second, out);
    Refusal::check(joining.code, 0)?;
    Ok(joining.nibbles)
}

/// The count of samples before a nibble address.
///
/// ```
/// assert_eq!(doilycairn::address_to_sample(19), 15);
/// ```
pub fn address_to_sample(address: u32) -> u64 {
    ffi::address_to_sample(address)
}

/// The nibble address of a sample.
///
/// ```
/// assert_eq!(doilycairn::sample_to_address(14), 18);
/// ```
pub fn sample_to_address(sample: u32) -> u64 {
    ffi::sample_to_address(sample)
}
