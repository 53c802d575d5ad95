//! Playing a part of an image: from any sample on.

use super::Image;
use crate::{Refusal, ffi};
use std::ops::Range;

/// What [`Image::play_from`] gives.
#[derive(Clone, Copy, Debug, PartialEq, Eq)]
pub struct Part {
    /// Samples written to the output, from its start on.
    pub samples: usize,
    /// How many blocks have one of these samples or more.
    pub blocks: u32,
}

impl Part {
    fn answer(part: ffi::Part) -> Result<Self, Refusal> {
        Refusal::check(part.code, part.entry)?;
        Ok(Self { samples: part.samples as usize, blocks: part.blocks })
    }
}

impl Image<'_> {
    /// Plays from sample `first` on, counted from 0, as many samples as the output has room for, or up to the clip's last one. They are what
    /// [`play`](Self::play) gives there; later ones of the output are kept.
    ///
    /// To go on, call again with `first` plus the samples written. Each call tests the whole head and table again, all K entries, but plays
    /// nothing of the blocks before that of `first`; of that one, what comes before `first` is played and dropped.
    ///
    /// Refused by [`LowestPair`](Refusal::LowestPair), then by [`NoSuchSample`](Refusal::NoSuchSample) where `first` is not below `total` of
    /// the head, also with an empty output. No length of the output is refused.
    ///
    /// ```
    /// use doilycairn::{Coefficients, Encoder, History, Image, Part, Refusal, Start};
    ///
    /// let start = Start {
    ///     total: 20,
    ///     rate: 32_000,
    ///     block_size: 8,
    ///     gain: 0,
    ///     coefficients: Coefficients([0; 16]),
    ///     history: History::default(),
    ///     looped: None,
    /// };
    /// let mut encoder = Encoder::start(&start)?;
    /// encoder.feed(&[0, 1, 2, 3, 4, 5, 6, 7, 6, 5, 4, 3, 2, 1, 0, 1, 2, 3, 4, 5])?;
    /// encoder.close()?;
    ///
    /// // Blocks of 14 samples: the first two of these are in block 0, the others in block 1.
    /// let image = Image::open(encoder.image())?;
    /// let mut out = [0; 5];
    /// assert_eq!(image.play_from(12, &mut out)?, Part { samples: 5, blocks: 2 });
    /// assert_eq!(out, [2, 1, 0, 1, 2]);
    /// assert_eq!(image.play_from(12 + 5, &mut out)?, Part { samples: 3, blocks: 1 });
    /// assert_eq!(out, [3, 4, 5, 1, 2]);
    /// assert_eq!(image.play_from(20, &mut out), Err(Refusal::NoSuchSample));
    /// # Ok::<(), Refusal>(())
    /// ```
    pub fn play_from(&self, first: u32, out: &mut [i16]) -> Result<Part, Refusal> {
        Part::answer(ffi::play_from(self.bytes, first, out))
    }

    /// The samples of a range, up to the clip's last one: `part(400..600)` is `play()?[400..600]` of a clip that has so many.
    ///
    /// A range that is empty or ends before it starts gives none; its start is tested as any other. Refused as [`play_from`](Self::play_from).
    pub fn part(&self, range: Range<u32>) -> Result<Vec<i16>, Refusal> {
        let end = range.end.min(self.head.total);
        let mut out = vec![0; end.saturating_sub(range.start) as usize];
        self.play_from(range.start, &mut out)?;
        Ok(out)
    }
}
