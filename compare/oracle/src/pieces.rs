//! A reader that hands out its pieces in order.

use std::collections::VecDeque;
use unplug::audio::cue::Cue;
use unplug::audio::format::{Format, PcmS16Le, StaticFormat};
use unplug::audio::{ProgressHint, ReadSamples, Result, Samples, SourceTag};

/// Pieces in order, empty ones too; it does not say how much is left.
pub struct Pieces<'s, F: StaticFormat> {
    pieces: VecDeque<Samples<'s, F>>,
    tag: SourceTag,
}

impl<'s, F: StaticFormat> Pieces<'s, F> {
    /// Makes a reader of the pieces given.
    pub fn new(pieces: impl Into<VecDeque<Samples<'s, F>>>) -> Self {
        Self { pieces: pieces.into(), tag: "pieces".into() }
    }
}

impl<'s> Pieces<'s, PcmS16Le> {
    /// Makes a reader of pieces of samples.
    pub fn of_samples(pieces: &[&'s [i16]], rate: u32) -> Self {
        Self::new(pieces.iter().map(|piece| Samples::from_pcm(*piece, 1, rate)).collect::<Vec<_>>())
    }
}

impl<'s, F: StaticFormat> ReadSamples<'s> for Pieces<'s, F> {
    type Format = F;

    fn read_samples(&mut self) -> Result<Option<Samples<'s, F>>> {
        Ok(self.pieces.pop_front())
    }
    fn format(&self) -> Format {
        F::FORMAT
    }
    fn tag(&self) -> &SourceTag {
        &self.tag
    }
    fn progress(&self) -> Option<ProgressHint> {
        None
    }
    fn data_remaining(&self) -> Option<u64> {
        None
    }
    fn cues(&self) -> Box<dyn Iterator<Item = Cue> + '_> {
        Box::new(std::iter::empty())
    }
}
