//! The loop of an image, and playing it.

use super::Image;
use crate::{FrameContext, Loop, Refusal, ffi};

impl Image<'_> {
    /// The loop that the clip was started with, if there is one.
    pub fn looped(&self) -> Option<Loop> {
        self.looped.looped()
    }

    /// What each turn of the loop is played from: the header of the frame that holds its start, and the two samples before the start.
    pub fn loop_context(&self) -> Option<FrameContext> {
        self.looped.present.then_some(self.loop_context)
    }

    /// Plays the loop `times` times over, and gives how many samples that are: `times` × (`end` - `start`). Later ones of the output are kept.
    ///
    /// Each turn begins from [`loop_context`](Self::loop_context), and each later block from its own. Of an image that was started, fed and
    /// closed with nothing else touching state or buffer, these are the samples that [`play`](Self::play) gives from `start` to `end`; into
    /// smaller outputs [`play_from`](Self::play_from) plays the same ones. An image without a loop gives none.
    ///
    /// Refused by [`LowestPair`](Refusal::LowestPair), also where there is nothing to play, then by [`OutputTooShort`](Refusal::OutputTooShort).
    ///
    /// ```
    /// use doilycairn::{Coefficients, Encoder, History, Image, Loop, Refusal, Start};
    ///
    /// let start = Start {
    ///     total: 20,
    ///     rate: 32_000,
    ///     block_size: 8,
    ///     gain: 0,
    ///     coefficients: Coefficients([0; 16]),
    ///     history: History::default(),
    ///     looped: Some(Loop { start: 12, end: 16 }),
    /// };
    /// let mut encoder = Encoder::start(&start)?;
    /// encoder.feed(&[0, 1, 2, 3, 4, 5, 6, 7, 6, 5, 4, 3, 2, 1, 0, 1, 2, 3, 4, 5])?;
    /// encoder.close()?;
    ///
    /// // Blocks of 14 samples: the loop begins in block 0 and ends in block 1.
    /// let image = Image::open(encoder.image())?;
    /// assert_eq!(image.looped(), start.looped);
    /// assert_eq!(image.loop_context().unwrap().last_samples, [3, 4]);
    /// let mut out = [9; 9];
    /// assert_eq!(image.play_loop_into(2, &mut out)?, 8);
    /// assert_eq!(out, [2, 1, 0, 1, 2, 1, 0, 1, 9]);
    /// assert_eq!(image.play_loop_into(3, &mut out), Err(Refusal::OutputTooShort));
    /// # Ok::<(), Refusal>(())
    /// ```
    pub fn play_loop_into(&self, times: u32, out: &mut [i16]) -> Result<u64, Refusal> {
        let turns = ffi::play_loop(self.bytes, times, out);
        Refusal::check(turns.code, turns.entry)?;
        Ok(turns.samples)
    }

    /// The samples of the loop, `times` times over, all of them in memory; none of an image without a loop.
    pub fn play_loop(&self, times: u32) -> Result<Vec<i16>, Refusal> {
        let length = self.looped().map_or(0, |looped| looped.end - looped.start);
        let mut out = vec![0; times as usize * length as usize];
        self.play_loop_into(times, &mut out)?;
        Ok(out)
    }
}
