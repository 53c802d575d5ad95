//! One frame: fourteen samples in eight bytes.

use crate::{Coefficients, Refusal, ffi};

/// The two samples before a frame.
#[repr(C)]
#[derive(Clone, Copy, Debug, Default, PartialEq, Eq, Hash)]
pub struct History {
    /// The sample just before.
    pub newest: i16,
    /// The one before that.
    pub older: i16,
}

/// An encoded frame.
#[derive(Clone, Copy, Debug, PartialEq, Eq)]
pub struct EncodedFrame {
    /// A header byte, then two nibbles a byte.
    pub bytes: [u8; 8],
    /// Passes of the scale search, over all eight pairs.
    pub passes: u32,
    /// The two last samples that the bytes play.
    pub history: History,
}

/// Encodes the frame that comes after `history`.
///
/// ```
/// use doilycairn::{Coefficients, History, encode_frame};
///
/// let mut samples = [0; 14];
/// samples[0] = 9;
/// let frame = encode_frame(History::default(), &samples, &Coefficients([0; 16]))?;
/// assert_eq!(frame.bytes, [0x01, 0x40, 0, 0, 0, 0, 0, 0]);
/// assert_eq!(frame.passes, 16);
/// # Ok::<(), doilycairn::Refusal>(())
/// ```
pub fn encode_frame(
    history: History,
    samples: &[i16; 14],
    coefficients: &Coefficients,
) -> Result<EncodedFrame, Refusal> {
    let ffi::Frame { code, bytes, passes, history } =
        ffi::encode_frame(history, samples, coefficients);
    Refusal::check(code, 0)?;
    Ok(EncodedFrame { bytes, passes, history })
}
