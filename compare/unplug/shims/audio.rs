//! Stands in for unplug's audio.rs: the modules, the error and the progress hint.

pub mod cue;
pub mod format;
pub mod resample;
pub mod sample;

pub use cue::Cue;
pub use format::Format;
pub use sample::{ReadSamples, Samples, SourceTag};

use std::io;

pub type Result<T> = std::result::Result<T, Error>;

/// The errors that the copied files give.
#[derive(Debug)]
pub enum Error {
    DifferentChannelSizes,
    DifferentCoefficients,
    EmptyStream,
    InconsistentChannels,
    InconsistentSampleRate,
    InvalidChannelCount(u32),
    InvalidSampleRate(u32),
    Io(io::Error),
    NotFrameAligned,
    StreamNotMono,
    StreamNotStereo,
    UnsupportedFormat(Format),
}

impl From<io::Error> for Error {
    fn from(error: io::Error) -> Self {
        Self::Io(error)
    }
}

/// How much of a stream is done.
#[derive(Debug, Copy, Clone, PartialEq, Eq)]
pub struct ProgressHint {
    pub current: u64,
    pub total: u64,
}

impl ProgressHint {
    /// Makes a hint, unless there is nothing to do.
    pub fn new(current: u64, total: u64) -> Option<Self> {
        (total > 0).then_some(Self { current, total })
    }
}
