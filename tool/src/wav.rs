//! WAV: one channel of 16-bit PCM.

mod beside;
mod container;
mod format;
mod sampler;
mod samples;
mod write;

use beside::Beside;
use samples::Length;
use std::io::{self, Read};

pub use sampler::Sampler;
pub use samples::read_raw;
pub use write::{MOST_SAMPLES, write_head, write_samples};

/// A clip's samples and their rate.
#[derive(Debug)]
pub struct Clip {
    pub samples: Vec<i16>,
    pub rate: u32,
    /// The loops of a WAV file, where it says something of loops.
    pub sampler: Option<Sampler>,
    /// What was left out.
    pub notes: Vec<String>,
}

/// Why samples cannot be read.
#[derive(Debug)]
pub enum Wrong {
    Io(io::Error),
    Words(String),
    /// More samples than a clip may have: this many, where it is known.
    TooMany(Option<u64>),
    /// So many more bytes of memory are not to be had.
    Memory(u64),
}

impl From<io::Error> for Wrong {
    fn from(error: io::Error) -> Self {
        Wrong::Io(error)
    }
}

fn words<T>(text: impl Into<String>) -> Result<T, Wrong> {
    Err(Wrong::Words(text.into()))
}

/// Reads a WAV file in pieces: up to the end of its samples, or, where that is asked for, up to its own, to tell what is beside them.
pub fn read(reader: &mut dyn Read, ignore_length: bool, to_end: bool) -> Result<Clip, Wrong> {
    let riff = container::container(reader)?;
    let (mut rate, mut samples, mut beside) = (None, None, Beside::default());
    loop {
        let mut chunk = [0; 8];
        if fill(reader, &mut chunk)? < 8 {
            return words(match rate {
                None => "the WAV file ends before it says its format (no fmt chunk)",
                Some(_) => "the WAV file ends before its samples (no data chunk)",
            });
        }
        let size = le32(&chunk[4..]);
        match &chunk[..4] {
            b"fmt " => rate = Some(format::format(reader, size)?),
            b"data" if samples.is_none() => {
                let length = Length::of(size, riff, ignore_length);
                samples = Some(samples::data(reader, length)?);
                skip(reader, u64::from(size & 1))?;
            }
            id => beside.chunk(reader, id, size)?,
        }
        if let (Some(rate), Some(samples)) = (rate, &mut samples) {
            if to_end {
                beside.after(reader);
            }
            let Beside { sampler, notes } = beside;
            return Ok(Clip { samples: std::mem::take(samples), rate, sampler, notes });
        }
    }
}

/// Reads as many bytes as there are, up to the buffer's length.
fn fill(reader: &mut dyn Read, buffer: &mut [u8]) -> io::Result<usize> {
    let mut filled = 0;
    while filled < buffer.len() {
        match reader.read(&mut buffer[filled..]) {
            Ok(0) => break,
            Ok(got) => filled += got,
            Err(error) if error.kind() == io::ErrorKind::Interrupted => {}
            Err(error) => return Err(error),
        }
    }
    Ok(filled)
}

fn skip(reader: &mut dyn Read, bytes: u64) -> io::Result<()> {
    io::copy(&mut reader.take(bytes), &mut io::sink()).map(drop)
}

fn le32(bytes: &[u8]) -> u32 {
    u32::from_le_bytes([bytes[0], bytes[1], bytes[2], bytes[3]])
}
