//! The fmt chunk.

use super::container::CONVERT;
use super::{Wrong, fill, le32, skip, words};
use crate::text::counted;
use std::io::Read;

const PCM: u16 = 1;
const EXTENSIBLE: u16 = 0xfffe;

/// What follows the tag in a subformat.
const GUID_TAIL: [u8; 14] = [0, 0, 0, 0, 0x10, 0, 0x80, 0, 0, 0xaa, 0, 0x38, 0x9b, 0x71];

/// Reads a fmt chunk: the rate of one channel of 16-bit PCM.
pub fn format(reader: &mut dyn Read, size: u32) -> Result<u32, Wrong> {
    let mut bytes = [0; 40];
    let wanted = bytes.len().min(size as usize);
    let got = fill(reader, &mut bytes[..wanted])?;
    if wanted < 16 || got < wanted {
        return words("the WAV file's fmt chunk is cut short");
    }
    skip(reader, u64::from(size) + u64::from(size & 1) - wanted as u64)?;
    let field = |at: usize| u16::from_le_bytes([bytes[at], bytes[at + 1]]);
    let tag = match field(0) {
        EXTENSIBLE if wanted == 40 && bytes[26..] == GUID_TAIL => field(24),
        tag => tag,
    };
    match (tag, field(2), field(14), field(12)) {
        (PCM, 1, 16, 2) => Ok(le32(&bytes[4..])),
        (PCM, 1, 16, align) => {
            words(format!("the WAV file says 16 bits in {}", counted(align, "byte", "bytes")))
        }
        (PCM, 1, bits, _) => {
            words(format!("the WAV file has {bits} bits a sample; a clip has 16: {CONVERT}"))
        }
        (PCM, channels, ..) => words(format!(
            "the WAV file has {channels} channels; a clip has one: choose one, or mix them: {CONVERT}"
        )),
        (tag, ..) => {
            words(format!("the WAV file's samples are {}, and not PCM: {CONVERT}", tag_name(tag)))
        }
    }
}

fn tag_name(tag: u16) -> String {
    match tag {
        2 => "Microsoft ADPCM".into(),
        3 => "floating point".into(),
        6 => "A-law".into(),
        7 => "µ-law".into(),
        0x11 => "IMA ADPCM".into(),
        0x55 => "MP3".into(),
        EXTENSIBLE => "of an unknown subformat".into(),
        _ => format!("of format {tag:#06x}"),
    }
}
