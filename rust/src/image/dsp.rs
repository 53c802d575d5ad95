//! `.dsp` files: export of an image, import of a file.

use super::Image;
use crate::{Refusal, ffi};

impl Image<'_> {
    /// Writes the clip as a `.dsp` file, and gives how many bytes that are: [`dsp_size`] of `total` of the head. Later ones of the output are kept.
    ///
    /// The file holds no blocks: it has the bodies joined, and no history but the one before the clip, and the loop's as it is stored. So it is refused
    /// by [`OtherHistory`](Refusal::OtherHistory) where a later block's history is not what the block before it leaves, played from its own context;
    /// the first such block is named. Images that were started, fed and closed have none.
    ///
    /// Refused by [`LowestPair`](Refusal::LowestPair), then by [`OtherHistory`](Refusal::OtherHistory), then by
    /// [`OutputTooShort`](Refusal::OutputTooShort).
    pub fn to_dsp_into(&self, out: &mut [u8]) -> Result<usize, Refusal> {
        answer(ffi::export_dsp(self.bytes, out))
    }

    /// The clip as a `.dsp` file: what [`from_dsp`] gives the image back from, byte for byte, at its own block size.
    ///
    /// Refused as [`to_dsp_into`](Self::to_dsp_into) is, but for its room.
    ///
    /// ```
    /// use doilycairn::{Coefficients, Encoder, History, Image, Loop, Refusal, Start, from_dsp};
    ///
    /// let start = Start {
    ///     total: 20,
    ///     rate: 32_000,
    ///     block_size: 8,
    ///     gain: 0,
    ///     coefficients: Coefficients([0; 16]),
    ///     history: History::default(),
    ///     looped: Some(Loop { start: 12, end: 16 }),
    /// };
    /// let mut encoder = Encoder::start(&start)?;
    /// encoder.feed(&[0, 1, 2, 3, 4, 5, 6, 7, 6, 5, 4, 3, 2, 1, 0, 1, 2, 3, 4, 5])?;
    /// encoder.close()?;
    ///
    /// let file = Image::open(encoder.image())?.to_dsp()?;
    /// assert_eq!(file.len(), 96 + 12);
    /// assert_eq!(file[..4], [0, 0, 0, 20]); // samples
    /// assert_eq!(file[4..8], [0, 0, 0, 24]); // nibbles: those of two blocks, 16 and 8
    /// assert_eq!(file[16..24], [0, 0, 0, 14, 0, 0, 0, 19]); // the loop: addresses of its first and its last sample
    /// assert_eq!(from_dsp(&file, 8)?, encoder.image());
    ///
    /// // Block 1 begins from another history.
    /// let (_, mut bytes) = encoder.into_parts();
    /// bytes[83] ^= 1;
    /// let refusal = Image::open(&bytes)?.to_dsp().unwrap_err();
    /// assert_eq!(refusal, Refusal::OtherHistory { block: 1 });
    /// # Ok::<(), Refusal>(())
    /// ```
    pub fn to_dsp(&self) -> Result<Vec<u8>, Refusal> {
        let mut out = vec![0; dsp_size(self.head.total).unwrap_or(0)];
        self.to_dsp_into(&mut out)?;
        Ok(out)
    }
}

/// The bytes of the `.dsp` file of a clip, with a loop or without; `None` where starting the clip would be refused for its sample count.
///
/// ```
/// assert_eq!(doilycairn::dsp_size(20), Some(108));
/// assert_eq!(doilycairn::dsp_size(0), None);
/// ```
pub fn dsp_size(total: u32) -> Option<usize> {
    let size = ffi::dsp_size(total);
    (size > 0).then_some(size as usize)
}

/// The bytes of the image that [`from_dsp`] makes of this file. Refused as that is.
pub fn dsp_image_size(file: &[u8], block_size: u32) -> Result<usize, Refusal> {
    answer(ffi::dsp_image_size(file, block_size))
}

/// Writes the image of a `.dsp` file, as [`from_dsp`] gives it, and gives how many bytes that are: [`dsp_image_size`]. Later ones of the buffer are
/// kept.
///
/// Refused as [`from_dsp`] is, then by [`ImageTooShort`](Refusal::ImageTooShort).
pub fn from_dsp_into(file: &[u8], block_size: u32, image: &mut [u8]) -> Result<usize, Refusal> {
    answer(ffi::import_dsp(file, block_size, image))
}

/// The image of a `.dsp` file, in blocks of this size, which is cut down to a multiple of 8. It opens, and plays what the file's bodies play as one block.
/// What each block begins from is worked out by playing; what the loop begins from is copied. Bytes after the last body are dropped.
///
/// Refused by [`FileTooShort`](Refusal::FileTooShort), [`BadSampleCount`](Refusal::BadSampleCount), [`RateZero`](Refusal::RateZero),
/// [`BadBlockSize`](Refusal::BadBlockSize), [`BadField`](Refusal::BadField) and [`LowestPair`](Refusal::LowestPair), in that sequence.
///
/// ```
/// use doilycairn::{Image, Refusal, from_dsp};
///
/// // One sample, 8, as a file of 98 bytes.
/// let mut file = vec![0; 98];
/// file[..12].copy_from_slice(&[0, 0, 0, 1, 0, 0, 0, 3, 0, 0, 0x7d, 0]); // 1 sample, 3 nibbles, 32,000 a second
/// file[27] = 2;
/// file[63] = 0x01; // the header of the first frame, as at 96
/// file[96..].copy_from_slice(&[0x01, 0x40]);
///
/// let bytes = from_dsp(&file, 8192)?;
/// let image = Image::open(&bytes)?;
/// assert_eq!((image.head().rate, image.play()?), (32_000, vec![8]));
/// assert_eq!(image.to_dsp()?, file);
///
/// file[27] = 0;
/// assert_eq!(from_dsp(&file, 8192), Err(Refusal::BadField));
/// assert_eq!(from_dsp(&file[..97], 8192), Err(Refusal::FileTooShort));
/// # Ok::<(), Refusal>(())
/// ```
pub fn from_dsp(file: &[u8], block_size: u32) -> Result<Vec<u8>, Refusal> {
    let mut image = vec![0; dsp_image_size(file, block_size)?];
    from_dsp_into(file, block_size, &mut image)?;
    Ok(image)
}

fn answer(written: ffi::Written) -> Result<usize, Refusal> {
    Refusal::check(written.code, written.entry)?;
    Ok(written.bytes as usize)
}
