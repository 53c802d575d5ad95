//! Reading an image: opening, its blocks, playing, sameness; .dsp files.

use crate::{Block, Coefficients, FrameContext, LoopState, Played, Refusal, Samples, ffi};

mod dsp;
mod looped;
mod part;
mod sameness;

pub use dsp::{dsp_image_size, dsp_size, from_dsp, from_dsp_into};
pub use part::Part;
pub use sameness::{same, sounds_same};

/// The bytes of the head, and of each entry of the table after it.
const HEAD: usize = 56;
const ENTRY: usize = 16;

/// What the head of an image says.
#[repr(C)]
#[derive(Clone, Copy, Debug, PartialEq, Eq)]
pub struct Head {
    /// Samples of the clip.
    pub total: u32,
    /// Samples a second.
    pub rate: u32,
    /// Bytes of a block.
    pub block: u32,
    /// As given when the clip was started.
    pub gain: u16,
    /// The coefficients.
    pub coefficients: Coefficients,
    /// Count of blocks.
    pub blocks: u32,
}

/// Bytes that open as an image: head and table are as they should be. They stay borrowed, so that no call on it is refused for its
/// head or its table: 13, 14, 17, 19 and 35 are left.
///
/// ```
/// use doilycairn::{Image, Refusal};
///
/// // One sample, 9, in one block.
/// let mut bytes = vec![0; 74];
/// bytes[..16].copy_from_slice(b"DSPC\0\0\0\x01\0\0\x7d\0\0\0\0\x08");
/// bytes[52..].copy_from_slice(b"\0\0\0\x01\0\0\0\x48\0\0\0\x03\0\x01\0\0\0\0\0\0\x01\x40");
///
/// let image = Image::open(&bytes)?;
/// assert_eq!(image.head().rate, 32_000);
/// assert_eq!(image.play()?, [8]);
///
/// let block = image.blocks().next().unwrap();
/// assert_eq!((block.bytes, block.nibbles), (&[0x01, 0x40][..], 3));
/// # Ok::<(), Refusal>(())
/// ```
#[derive(Clone, Copy, Debug)]
pub struct Image<'a> {
    bytes: &'a [u8],
    head: Head,
    looped: LoopState,
    loop_context: FrameContext,
}

impl<'a> Image<'a> {
    /// Opens an image: tests its head and table. Bytes after the image are allowed.
    ///
    /// Refused by [`BadHead`](Refusal::BadHead), then by the first bad entry of a block, with its block, then by [`BadLoop`](Refusal::BadLoop).
    pub fn open(bytes: &'a [u8]) -> Result<Self, Refusal> {
        let ffi::Opening { code, entry, head, looped, loop_context } = ffi::open(bytes);
        Refusal::check(code, entry)?;
        Ok(Self { bytes, head, looped, loop_context })
    }

    /// What the head says.
    pub fn head(&self) -> &Head {
        &self.head
    }

    /// Block `k`, from 0 on.
    ///
    /// Each call tests the whole head and table again, all K entries: for every block in turn use [`blocks`](Self::blocks), which does not.
    pub fn block(&self, k: u32) -> Result<Block<'a>, Refusal> {
        let body = ffi::block_body(self.bytes, k);
        Refusal::check(body.code, body.entry)?;
        let bytes = &self.bytes[body.offset as usize..][..body.bytes as usize];
        let coefficients = self.head.coefficients;
        Ok(Block { bytes, nibbles: body.nibbles, coefficients, context: body.context })
    }

    /// The blocks in turn. Opening has tested the table, so this takes no more than a look at each entry.
    pub fn blocks(&self) -> impl ExactSizeIterator<Item = Block<'a>> + use<'a> {
        let image = *self;
        (0..image.head.blocks).map(move |k| image.entry(k))
    }

    /// Plays block `k` from its own context.
    ///
    /// Each call tests the whole head and table again, all K entries: for every block in turn use [`play`](Self::play), or [`Block::play`]
    /// of each of [`blocks`](Self::blocks).
    pub fn play_block(&self, k: u32, out: &mut [i16]) -> Result<Played, Refusal> {
        Played::answer(ffi::play(self.bytes, k, out))
    }

    /// The clip's samples in turn, a block played at a time.
    pub fn samples(&self) -> Result<Samples<'a>, Refusal> {
        Samples::new(*self)
    }

    /// Plays the whole clip, whose samples are `total` of the head. Later ones of the output are kept. A part of it plays by
    /// [`play_from`](Self::play_from).
    pub fn play_into(&self, out: &mut [i16]) -> Result<Played, Refusal> {
        Played::answer(ffi::play_all(self.bytes, out))
    }

    /// The clip's samples.
    pub fn play(&self) -> Result<Vec<i16>, Refusal> {
        let mut out = vec![0; self.head.total as usize];
        self.play_into(&mut out)?;
        Ok(out)
    }

    /// What the entry of block `k` says, one of the image's blocks.
    pub(crate) fn entry(&self, k: u32) -> Block<'a> {
        let (offset, nibbles) = (self.get32(k, 0), self.get32(k, 4));
        let context = FrameContext {
            predictor_and_scale: self.get16(k, 8),
            last_samples: [self.get16(k, 10) as i16, self.get16(k, 12) as i16],
        };
        let bytes = &self.bytes[offset as usize..][..nibbles.div_ceil(2) as usize];
        Block { bytes, nibbles, coefficients: self.head.coefficients, context }
    }

    /// The two bytes at `place` of block `k`'s entry.
    fn get16(&self, k: u32, place: usize) -> u16 {
        let at = HEAD + ENTRY * k as usize + place;
        u16::from_be_bytes([self.bytes[at], self.bytes[at + 1]])
    }

    /// The four bytes at `place` of block `k`'s entry.
    fn get32(&self, k: u32, place: usize) -> u32 {
        u32::from(self.get16(k, place)) << 16 | u32::from(self.get16(k, place + 2))
    }
}
