//! The samples of a WAV file, or headerless ones.

use super::{Wrong, fill, words};
use crate::text::{count, counted};
use doilycairn::MAX_SAMPLES;
use std::io::Read;

/// Lengths from here on are those of writers that do not know: programs that write to a pipe.
const UNKNOWN: u32 = 0x7fff_f000;

/// How long a data chunk is.
#[derive(Clone, Copy, Debug, PartialEq, Eq)]
pub enum Length {
    /// As the chunk says.
    Stated(u32),
    /// To the end, since its writer did not know.
    Streamed,
    /// To the end, whatever it says.
    Ignored,
}

impl Length {
    pub fn of(size: u32, riff: u32, ignored: bool) -> Self {
        match size {
            _ if ignored => Length::Ignored,
            UNKNOWN.. => Length::Streamed,
            0 if riff == 0 || riff >= UNKNOWN => Length::Streamed,
            _ => Length::Stated(size),
        }
    }
}

pub fn data(reader: &mut dyn Read, length: Length) -> Result<Vec<i16>, Wrong> {
    let stated = match length {
        Length::Stated(size) => u64::from(size),
        _ => u64::MAX,
    };
    if stated != u64::MAX && stated / 2 > u64::from(MAX_SAMPLES) {
        return Err(Wrong::TooMany(Some(stated / 2)));
    }
    let (samples, half) = samples(&mut reader.take(stated))?;
    let got = 2 * samples.len() as u64 + u64::from(half);
    match length {
        Length::Stated(_) if got < stated => words(format!(
            "the WAV file says {} of samples and has only {}: it is cut short; --ignore-length takes what is there",
            counted(stated, "byte", "bytes"),
            count(got)
        )),
        Length::Stated(_) | Length::Streamed if half => words(HALF),
        _ => Ok(samples),
    }
}

const HALF: &str = "its samples end in the middle of one";

/// Reads headerless samples: 16 bits, little-endian, to the end.
pub fn read_raw(reader: &mut dyn Read, ignore_length: bool) -> Result<Vec<i16>, Wrong> {
    match samples(reader)? {
        (_, true) if !ignore_length => words(HALF),
        (samples, _) => Ok(samples),
    }
}

/// Reads samples to the end, and tells whether half of one is left over.
fn samples(reader: &mut dyn Read) -> Result<(Vec<i16>, bool), Wrong> {
    let mut samples: Vec<i16> = vec![];
    let mut piece = vec![0; 1 << 16];
    loop {
        let got = fill(reader, &mut piece)?;
        if samples.len() + got / 2 > MAX_SAMPLES as usize {
            return Err(Wrong::TooMany(None));
        }
        samples.try_reserve(got / 2).map_err(|_| Wrong::Memory(4 * samples.len() as u64))?;
        let pairs = piece[..got].chunks_exact(2);
        samples.extend(pairs.map(|pair| i16::from_le_bytes([pair[0], pair[1]])));
        if got < piece.len() {
            return Ok((samples, got % 2 == 1));
        }
    }
}
