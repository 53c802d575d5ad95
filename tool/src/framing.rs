//! Clips of whole frames, which another clip can follow.

use crate::args::Args;
use crate::failure::Failure;
use crate::json::{Fields, Json};
use crate::text::counted;

/// Samples of a frame.
const FRAME: usize = 14;

/// What to do with a last frame that is not full.
#[derive(Clone, Copy, Debug, PartialEq, Eq)]
pub enum Framing {
    Keep,
    Pad,
    Cut,
}

/// What was done with it.
#[derive(Clone, Copy, Debug, Default, PartialEq, Eq)]
pub struct Framed {
    added: usize,
    left_out: usize,
}

/// The options.
pub fn wanted(args: &Args) -> Result<Framing, Failure> {
    match (args.has("--pad-to-frame"), args.has("--cut-to-frame")) {
        (true, true) => {
            Err(Failure::usage("--pad-to-frame and --cut-to-frame: give one of the two"))
        }
        (true, false) => Ok(Framing::Pad),
        (false, true) => Ok(Framing::Cut),
        (false, false) => Ok(Framing::Keep),
    }
}

/// Pads or cuts a clip to whole frames; the last sample is held, since a step to zero would spoil the last frame.
pub fn apply(framing: Framing, name: &str, clip: &mut Vec<i16>) -> Result<Framed, Failure> {
    let more = clip.len() % FRAME;
    match framing {
        Framing::Cut if more == clip.len() => {
            let has = counted(more as u64, "sample", "samples");
            Err(Failure::input(name, format!("{has}: --cut-to-frame would leave none")))
        }
        Framing::Cut => {
            clip.truncate(clip.len() - more);
            Ok(Framed { added: 0, left_out: more })
        }
        Framing::Pad => {
            let added = clip.len().next_multiple_of(FRAME) - clip.len();
            clip.resize(clip.len() + added, clip.last().copied().unwrap_or(0));
            Ok(Framed { added, left_out: 0 })
        }
        Framing::Keep => Ok(Framed::default()),
    }
}

impl Framed {
    pub fn words(&self) -> String {
        match (self.added as u64, self.left_out as u64) {
            (0, 0) => String::new(),
            (0, more) => format!("; {} left out", counted(more, "sample", "samples")),
            (more, _) => format!("; {} added", counted(more, "sample", "samples")),
        }
    }

    pub fn fields(&self) -> Fields<'static> {
        vec![
            ("samples_added", Json::Whole(self.added as i64)),
            ("samples_left_out", Json::Whole(self.left_out as i64)),
        ]
    }
}
