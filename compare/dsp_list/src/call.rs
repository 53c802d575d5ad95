//! Calls that export and import, and their answers.

use crate::exporting::export_to;
use crate::importing::{import, import_to};
use clip_list::{digest, hexadecimal};
use image_list::reader::Refused;

/// A call on a source.
#[derive(Debug, Clone, Copy, PartialEq)]
pub enum Call {
    Export {
        room: usize,
    },
    Import {
        size: u32,
        room: usize,
    },
    /// Asks how much room import needs.
    Room {
        size: u32,
    },
}

/// What a call answers: 0 or the refusal's number, the block that it names, and how many bytes.
#[derive(Debug, Clone, Copy, Default, PartialEq)]
pub struct Answer {
    pub code: u8,
    pub block: u32,
    pub count: usize,
}

impl Call {
    pub fn letter(self) -> char {
        match self {
            Self::Export { .. } => 'e',
            Self::Import { .. } => 'i',
            Self::Room { .. } => 'r',
        }
    }

    /// The output's length.
    pub fn room(self) -> usize {
        match self {
            Self::Export { room } | Self::Import { room, .. } => room,
            Self::Room { .. } => 0,
        }
    }

    /// The block size; zero where there is none.
    pub fn size(self) -> u32 {
        match self {
            Self::Export { .. } => 0,
            Self::Import { size, .. } | Self::Room { size } => size,
        }
    }

    /// The answer, and what is written to the output.
    pub fn made(self, source: &[u8]) -> (Answer, Vec<u8>) {
        let made = match self {
            Self::Export { room } => export_to(source, room),
            Self::Import { size, room } => import_to(source, size, room),
            Self::Room { size } => import(source, size),
        };
        match made {
            Ok(written) => {
                let answer = Answer { count: written.len(), ..Answer::default() };
                (answer, if matches!(self, Self::Room { .. }) { vec![] } else { written })
            }
            Err(Refused { code, block }) => (Answer { code, block, count: 0 }, vec![]),
        }
    }
}

/// The line of an answer: its numbers, the digest of the output, and the output's bytes where they are asked for.
pub fn line(answer: Answer, output: &[u8], shown: bool) -> String {
    let Answer { code, block, count } = answer;
    let line = format!("{code:02x} {block:08x} {count:08x} {:010x}", digest(output));
    if shown { format!("{line} {}", hexadecimal(output)) } else { line }
}
