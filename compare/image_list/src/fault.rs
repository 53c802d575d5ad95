//! Faults of a table's entries.

use crate::damage::{ENTRY, HEAD, body};
use oracle::random::Random;
use std::ops::Range;

/// What can be wrong with an entry.
#[derive(Debug, Clone, Copy, PartialEq)]
pub enum Fault {
    Offset,
    Length,
    ZeroBytes,
    UpperHeader,
    LowerHeader,
    /// The body's first byte is not the header.
    Body,
}

pub const FAULTS: [Fault; 6] = [
    Fault::Offset,
    Fault::Length,
    Fault::ZeroBytes,
    Fault::UpperHeader,
    Fault::LowerHeader,
    Fault::Body,
];

impl Fault {
    /// The bytes of an image of which one is altered, for block k.
    pub fn places(self, image: &[u8], k: usize) -> Range<usize> {
        let entry = HEAD + ENTRY * k;
        match self {
            Self::Offset => entry..entry + 4,
            Self::Length => entry + 4..entry + 8,
            Self::ZeroBytes => entry + 14..entry + 16,
            Self::UpperHeader => entry + 8..entry + 9,
            Self::LowerHeader => entry + 9..entry + 10,
            Self::Body => body(image, k)..body(image, k) + 1,
        }
    }

    /// One of these bytes.
    pub fn place(self, random: &mut Random, image: &[u8], k: usize) -> usize {
        let places = self.places(image, k);
        places.start + random.below(places.len())
    }
}

/// What makes a byte another one.
pub fn change(random: &mut Random) -> u8 {
    1 + random.below(255) as u8
}
