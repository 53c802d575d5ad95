//! Writing WAV files and samples.

use std::io::{self, Write};

/// The most samples that a WAV file has: its size is told in 32 bits, with 36 bytes that come before the samples.
pub const MOST_SAMPLES: u32 = (u32::MAX - 36) / 2;

/// Writes the head of a WAV file with so many samples, up to the most. A byte rate above 32 bits is written as the largest.
pub fn write_head(samples: u32, rate: u32, out: &mut dyn Write) -> io::Result<()> {
    let bytes = 2 * samples;
    out.write_all(b"RIFF")?;
    out.write_all(&(36 + bytes).to_le_bytes())?;
    out.write_all(b"WAVEfmt \x10\0\0\0\x01\0\x01\0")?;
    out.write_all(&rate.to_le_bytes())?;
    out.write_all(&rate.saturating_mul(2).to_le_bytes())?;
    out.write_all(b"\x02\0\x10\0data")?;
    out.write_all(&bytes.to_le_bytes())
}

/// Writes samples: 16 bits, little-endian.
pub fn write_samples(samples: &[i16], out: &mut dyn Write) -> io::Result<()> {
    let mut bytes = [0; 8192];
    for piece in samples.chunks(bytes.len() / 2) {
        for (pair, sample) in bytes.chunks_exact_mut(2).zip(piece) {
            pair.copy_from_slice(&sample.to_le_bytes());
        }
        out.write_all(&bytes[..2 * piece.len()])?;
    }
    Ok(())
}
