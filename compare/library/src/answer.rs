//! Answers that can be compared, and altered to see that a comparison can fail.

use crate::c_encoding::Encoding;
use crate::c_files::Written;
use crate::ffi::{Body, Comparison, Opening, Part, Playback, Turns};
use clip_list::State;
use image_list::reader::Refused;
use oracle::FrameContext;
use std::fmt::Debug;

/// An answer of a call.
pub trait Answer: PartialEq + Debug {
    /// Makes it another one.
    fn alter(&mut self);

    /// Why the call is refused, if it is.
    fn refused(&self) -> Option<Refused> {
        None
    }
}

macro_rules! numbers {
    ($($number:ty)*) => {
        $(impl Answer for $number {
            fn alter(&mut self) {
                *self ^= 1;
            }
        })*
    };
}

numbers!(u8 u16 u32 u64 usize i16);

impl Answer for bool {
    fn alter(&mut self) {
        *self = !*self;
    }
}

impl Answer for FrameContext {
    fn alter(&mut self) {
        self.last_samples.alter();
    }
}

impl Answer for State {
    fn alter(&mut self) {
        self.passes.alter();
    }
}

/// Of several numbers the last is altered.
impl<T: Answer, const N: usize> Answer for [T; N] {
    fn alter(&mut self) {
        self[N - 1].alter();
    }
}

/// Of a buffer the last place is altered, which no call may write where it is longer than needed.
impl<T: Answer> Answer for Vec<T> {
    fn alter(&mut self) {
        if let Some(last) = self.last_mut() {
            last.alter();
        }
    }
}

/// An answer and a buffer, or the like.
impl<A: Answer, B: Answer> Answer for (A, B) {
    fn alter(&mut self) {
        self.1.alter();
    }

    fn refused(&self) -> Option<Refused> {
        self.0.refused()
    }
}

impl<A: Answer, B: Answer, C: Answer> Answer for (A, B, C) {
    fn alter(&mut self) {
        self.1.alter();
    }

    fn refused(&self) -> Option<Refused> {
        self.0.refused()
    }
}

/// Why a call is refused: a number, or a number and a block.
pub trait Reason: PartialEq + Debug {
    /// Makes it another one.
    fn alter(&mut self);

    fn refused(&self) -> Refused;
}

impl Reason for u8 {
    fn alter(&mut self) {
        *self ^= 1;
    }

    fn refused(&self) -> Refused {
        Refused::by(*self)
    }
}

/// Where a block is named, it alone is altered.
impl Reason for Refused {
    fn alter(&mut self) {
        match self.code {
            20..=22 | 35 => self.block ^= 1,
            _ => self.code ^= 1,
        }
    }

    fn refused(&self) -> Refused {
        *self
    }
}

impl<T: Answer, R: Reason> Answer for Result<T, R> {
    fn alter(&mut self) {
        match self {
            Ok(answer) => answer.alter(),
            Err(reason) => reason.alter(),
        }
    }

    fn refused(&self) -> Option<Refused> {
        self.as_ref().err().map(Reason::refused)
    }
}

/// What an answer of C says by its code and its entry.
fn refused_by(code: u32, block: u32) -> Option<Refused> {
    (code > 0).then_some(Refused { code: code as u8, block })
}

/// Where a block is named, it alone is altered; else the code.
macro_rules! answers_of_c {
    ($($answer:ty)*) => {
        $(impl Answer for $answer {
            fn alter(&mut self) {
                match self.code {
                    20..=22 => self.entry ^= 1,
                    _ => self.code ^= 1,
                }
            }

            fn refused(&self) -> Option<Refused> {
                refused_by(self.code, self.entry)
            }
        })*
    };
}

answers_of_c!(Body Playback);

/// Where two images are compared, whether they are the same is altered alone.
impl Answer for Comparison {
    fn alter(&mut self) {
        match self.code {
            0 => self.same ^= 1,
            20..=22 => self.entry ^= 1,
            _ => self.code ^= 1,
        }
    }

    fn refused(&self) -> Option<Refused> {
        refused_by(self.code, self.entry)
    }
}

/// Where there is a loop, its context alone is altered.
impl Answer for Opening {
    fn alter(&mut self) {
        match self.code {
            0 if self.looped.present == 1 => self.loop_context.last_samples.alter(),
            20..=22 => self.entry ^= 1,
            _ => self.code ^= 1,
        }
    }

    fn refused(&self) -> Option<Refused> {
        refused_by(self.code, self.entry)
    }
}

/// Where a loop is played, the count of its samples alone is altered.
impl Answer for Turns {
    fn alter(&mut self) {
        match self.code {
            0 => self.samples ^= 1,
            20..=22 => self.entry ^= 1,
            _ => self.code ^= 1,
        }
    }

    fn refused(&self) -> Option<Refused> {
        refused_by(self.code, self.entry)
    }
}

/// Where a file is exported or imported, the count of bytes alone is altered.
impl Answer for Written {
    fn alter(&mut self) {
        match self.code {
            0 => self.bytes ^= 1,
            20..=22 | 35 => self.entry ^= 1,
            _ => self.code ^= 1,
        }
    }

    fn refused(&self) -> Option<Refused> {
        refused_by(self.code, self.entry)
    }
}

/// Of a state its loop's context alone is altered.
impl Answer for Encoding {
    fn alter(&mut self) {
        self.encoder.loop_context.last_samples.alter();
    }

    fn refused(&self) -> Option<Refused> {
        refused_by(self.code, 0)
    }
}

/// Where a run is played, the count of its blocks alone is altered.
impl Answer for Part {
    fn alter(&mut self) {
        match self.code {
            0 => self.blocks ^= 1,
            20..=22 => self.entry ^= 1,
            _ => self.code ^= 1,
        }
    }

    fn refused(&self) -> Option<Refused> {
        refused_by(self.code, self.entry)
    }
}
