//! What a file is by its first bytes, where it is to be a WAV file.

use super::{Wrong, fill, le32, words};
use std::io::Read;

/// The command that makes a WAV file of one channel of 16-bit PCM from any recording.
pub const CONVERT: &str =
    "convert it first: `ffmpeg -i IN -ac 1 -c:a pcm_s16le OUT.wav` serves every kind of recording";

/// Tests the first twelve bytes, and gives the size that they tell.
pub fn container(reader: &mut dyn Read) -> Result<u32, Wrong> {
    let mut head = [0; 12];
    let got = fill(reader, &mut head)?;
    match (&head[..4], &head[8..]) {
        (b"RIFF", b"WAVE") => Ok(le32(&head[4..])),
        (b"DSPC", _) => words("a clip image already: `decode` makes a WAV file of it"),
        _ if got == 0 => words("empty, and not a WAV file"),
        _ => match other(&head) {
            Some(kind) => words(format!("{kind}: {CONVERT}")),
            None => words("not a WAV file; headerless samples are read with --raw --rate HZ"),
        },
    }
}

/// A kind of recording that is not read.
fn other(head: &[u8; 12]) -> Option<&'static str> {
    let kind = match head {
        [b'R', b'I', b'F', b'X', ..] => "a big-endian WAV file (RIFX)",
        [b'R', b'F', b'6', b'4', ..] | [b'B', b'W', b'6', b'4', ..] => "a 64-bit WAV file (RF64)",
        [b'r', b'i', b'f', b'f', 0x2e, 0x91, ..] => "a Wave64 file and not a WAV file",
        [b'R', b'I', b'F', b'F', ..] => "a RIFF file, but not a WAV file",
        [b'F', b'O', b'R', b'M', ..] => "an AIFF file and not a WAV file",
        [b'.', b's', b'n', b'd', ..] => "an AU file and not a WAV file",
        [b'f', b'L', b'a', b'C', ..] => "a FLAC file and not a WAV file",
        [b'O', b'g', b'g', b'S', ..] => "an Ogg file and not a WAV file",
        [b'I', b'D', b'3', ..] | [0xff, 0xfb | 0xf3 | 0xf2, ..] => "an MP3 file and not a WAV file",
        [_, _, _, _, b'f', b't', b'y', b'p', ..] => "an MP4 file and not a WAV file",
        [b'c', b'a', b'f', b'f', ..] => "a CAF file and not a WAV file",
        _ => return None,
    };
    Some(kind)
}
