//! Encoding: from samples to an image.

use crate::{Coefficients, FrameContext, History, Loop, LoopState, Refusal, ffi};

/// The bytes of the image of a clip without a loop; `None` where starting it would be refused for its sample count or block size.
///
/// ```
/// assert_eq!(doilycairn::image_size(15, 8), Some(98));
/// assert_eq!(doilycairn::image_size(15, 7), None);
/// ```
pub fn image_size(total: u32, block_size: u32) -> Option<usize> {
    unless_zero(ffi::image_size(total, block_size))
}

/// The bytes of the image of a clip with a loop; `None` where starting it would be refused for its sample count or block size.
///
/// ```
/// assert_eq!(doilycairn::loop_image_size(15, 8), Some(98 + 16));
/// assert_eq!(doilycairn::loop_image_size(15, 7), None);
/// ```
pub fn loop_image_size(total: u32, block_size: u32) -> Option<usize> {
    unless_zero(ffi::loop_image_size(total, block_size))
}

/// A size; 0 is none.
fn unless_zero(size: u64) -> Option<usize> {
    (size > 0).then_some(size as usize)
}

/// What a clip is started with.
#[derive(Clone, Copy, Debug, PartialEq, Eq)]
pub struct Start {
    /// Samples of the whole clip.
    pub total: u32,
    /// Samples a second.
    pub rate: u32,
    /// Bytes of a block, cut down to a multiple of 8.
    pub block_size: u32,
    /// Stored in the image, and else unused.
    pub gain: u16,
    /// The coefficients, as measured or brought from elsewhere: |c0| + |c1| is at most [`MAX_PAIR_SUM`](crate::MAX_PAIR_SUM) in each pair.
    pub coefficients: Coefficients,
    /// The samples before the clip's first one.
    pub history: History,
    /// The loop, if the clip has one.
    pub looped: Option<Loop>,
}

impl Start {
    /// The bytes of the clip's image, as [`image_size`] says, or [`loop_image_size`] with a loop.
    pub fn image_size(&self) -> Option<usize> {
        match self.looped {
            None => image_size(self.total, self.block_size),
            Some(_) => loop_image_size(self.total, self.block_size),
        }
    }
}

/// The encoding state, a plain value: to undo a piece, keep the state from before it. [`Encoder`] holds one together with its image.
///
/// Feeding from an older state writes over what came after it; until then those bytes stay in the image.
#[repr(C)]
#[derive(Clone, Copy, Debug, PartialEq, Eq)]
pub struct EncoderState {
    /// Samples of the whole clip.
    pub total: u32,
    /// Samples a second.
    pub rate: u32,
    /// Bytes of a block: a multiple of 8.
    pub block: u32,
    /// Stored in the image, and else unused.
    pub gain: u16,
    /// The coefficients.
    pub coefficients: Coefficients,
    /// Samples fed so far.
    pub fed: u32,
    /// The two samples, as they will play, before the frame that is not yet full.
    pub history: History,
    /// The frame that is not yet full.
    pub frame: [i16; 14],
    /// Passes of the scale search, over all frames so far.
    pub passes: u32,
    /// Whether the clip is closed.
    pub closed: bool,
    /// The loop, if the clip has one.
    pub looped: LoopState,
    /// What the loop is played from; zeros until the frame that holds its start is encoded.
    pub loop_context: FrameContext,
}

impl EncoderState {
    /// Starts a clip: writes its image, with zeros for the mark, contexts, the loop's entry and bodies. Bytes after the image are never touched.
    pub fn start(start: &Start, image: &mut [u8]) -> Result<Self, Refusal> {
        Self::answer(ffi::start(start, image))
    }

    /// Feeds the next piece: each frame that it fills is encoded to its place. The one that holds the loop's start tells the loop's context.
    pub fn feed(self, piece: &[i16], image: &mut [u8]) -> Result<Self, Refusal> {
        Self::answer(ffi::feed(self, piece, image))
    }

    /// Closes the clip: encodes a short last frame, and writes the entry of the loop, if there is one, and the mark.
    pub fn close(self, image: &mut [u8]) -> Result<Self, Refusal> {
        Self::answer(ffi::close(self, image))
    }

    /// The bytes of the clip's image, as [`image_size`] says, or [`loop_image_size`] with a loop.
    pub fn image_size(&self) -> Option<usize> {
        match self.looped.present {
            false => image_size(self.total, self.block),
            true => loop_image_size(self.total, self.block),
        }
    }

    fn answer(encoding: ffi::Encoding) -> Result<Self, Refusal> {
        Refusal::check(encoding.code, 0)?;
        Ok(encoding.encoder)
    }
}

/// Encodes a clip, piece by piece, to an image of its own or to a buffer that is lent.
///
/// ```
/// use doilycairn::{Coefficients, Encoder, History, Image, Start};
///
/// let clip: Vec<i16> = (0..1000).map(|i| (i * 37 % 2001 - 1000) as i16).collect();
/// let start = Start {
///     total: 1000,
///     rate: 32_000,
///     block_size: 256,
///     gain: 0,
///     coefficients: Coefficients::measure(&clip)?,
///     history: History::default(),
///     looped: None,
/// };
/// let mut encoder = Encoder::start(&start)?;
/// for piece in clip.chunks(77) {
///     encoder.feed(piece)?;
/// }
/// encoder.close()?;
/// assert_eq!(Image::open(encoder.image())?.head().total, 1000);
///
/// // To a lent buffer: the same image.
/// let mut buffer = vec![0; 1_000];
/// let mut lent = Encoder::start_in(&start, &mut buffer[..])?;
/// lent.feed(&clip)?;
/// lent.close()?;
/// assert_eq!(lent.image(), encoder.image());
/// # Ok::<(), doilycairn::Refusal>(())
/// ```
#[derive(Clone, Debug)]
pub struct Encoder<B = Vec<u8>> {
    state: EncoderState,
    buffer: B,
}

impl Encoder {
    /// Starts a clip with a buffer of its own, of exactly the image's size.
    pub fn start(start: &Start) -> Result<Self, Refusal> {
        Self::start_in(start, vec![0; start.image_size().unwrap_or(0)])
    }
}

impl<B: AsRef<[u8]> + AsMut<[u8]>> Encoder<B> {
    /// Starts a clip in this buffer. Bytes after the image are never touched.
    pub fn start_in(start: &Start, mut buffer: B) -> Result<Self, Refusal> {
        let state = EncoderState::start(start, buffer.as_mut())?;
        Ok(Self { state, buffer })
    }

    /// Goes on from a state, with the buffer that it was fed with.
    pub fn from_parts(state: EncoderState, buffer: B) -> Self {
        Self { state, buffer }
    }

    /// The state and the buffer.
    pub fn into_parts(self) -> (EncoderState, B) {
        (self.state, self.buffer)
    }

    /// The state.
    pub fn state(&self) -> EncoderState {
        self.state
    }

    /// The image so far, without the bytes after it.
    pub fn image(&self) -> &[u8] {
        let buffer = self.buffer.as_ref();
        let size = self.state.image_size().unwrap_or(0);
        &buffer[..size.min(buffer.len())]
    }

    /// Feeds the next piece, of any length up to what the clip still lacks.
    pub fn feed(&mut self, piece: &[i16]) -> Result<(), Refusal> {
        self.state = self.state.feed(piece, self.buffer.as_mut())?;
        Ok(())
    }

    /// Closes the clip, once all its samples are fed. Then the image opens.
    pub fn close(&mut self) -> Result<(), Refusal> {
        self.state = self.state.close(self.buffer.as_mut())?;
        Ok(())
    }
}
