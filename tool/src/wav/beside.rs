//! What a WAV file has beside its samples: its loops, and what a clip does not keep and a listener would miss.

use super::sampler::Sampler;
use super::{fill, le32, skip};
use crate::text::counted;
use std::io::{self, Read};

/// What was found beside the samples.
#[derive(Debug, Default)]
pub struct Beside {
    /// The first smpl chunk.
    pub sampler: Option<Sampler>,
    /// What was left out.
    pub notes: Vec<String>,
}

impl Beside {
    /// Reads a chunk that has no samples for the clip.
    pub fn chunk(&mut self, reader: &mut dyn Read, id: &[u8], size: u32) -> io::Result<()> {
        let padded = u64::from(size) + u64::from(size & 1);
        match id {
            b"smpl" if self.sampler.is_none() => {
                self.sampler = Some(Sampler::read(reader, size)?);
                return Ok(());
            }
            b"data" => {
                let bytes = counted(size, "byte", "bytes");
                self.notes.push(format!("a second data chunk, of {bytes}, is left out"));
            }
            _ => {}
        }
        skip(reader, padded)
    }

    /// Reads what follows the samples, to the end of the file.
    pub fn after(&mut self, reader: &mut dyn Read) {
        let mut head = [0; 8];
        while fill(reader, &mut head).is_ok_and(|got| got == 8) {
            if self.chunk(reader, &head[..4], le32(&head[4..])).is_err() {
                break;
            }
        }
    }
}
