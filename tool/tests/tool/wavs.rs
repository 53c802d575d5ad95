//! WAV files that are read.

use crate::support::{Folder, chunk, format, image, raw, riff, sound};

/// The tool encodes these bytes as it encodes the clip.
#[track_caller]
fn reads(bytes: &[u8], clip: &[i16]) {
    reads_with("encode in.wav out.dspc", bytes, clip);
}

#[track_caller]
fn reads_with(line: &str, bytes: &[u8], clip: &[i16]) {
    let folder = Folder::new();
    folder.write("in.wav", bytes);
    folder.done(line);
    assert_eq!(folder.read("out.dspc"), image(clip, 32_000, 8192));
}

/// A fmt chunk of extensible PCM.
fn extensible() -> Vec<u8> {
    let mut body = format(0xfffe, 1, 32_000, 16);
    body.extend([22, 0, 16, 0, 4, 0, 0, 0, 1, 0]);
    body.extend([0, 0, 0, 0, 0x10, 0, 0x80, 0, 0, 0xaa, 0, 0x38, 0x9b, 0x71]);
    chunk(b"fmt ", &body)
}

fn plain() -> Vec<u8> {
    chunk(b"fmt ", &format(1, 1, 32_000, 16))
}

#[test]
fn formats() {
    let clip = sound(500, 1);
    let data = chunk(b"data", &raw(&clip));
    reads(&riff(&[plain(), data.clone()]), &clip);
    reads(&riff(&[extensible(), data.clone()]), &clip);
    let mut long = format(1, 1, 32_000, 16);
    long.extend([0, 0]);
    reads(&riff(&[chunk(b"fmt ", &long), data.clone()]), &clip);
    long.extend([7; 101]);
    reads(&riff(&[chunk(b"fmt ", &long), data.clone()]), &clip);
}

#[test]
fn chunks_in_any_order() {
    let clip = sound(500, 2);
    let data = chunk(b"data", &raw(&clip));
    let odd = chunk(b"LIST", &[1; 5]);
    let empty = chunk(b"fact", &[]);
    reads(&riff(&[odd.clone(), plain(), empty.clone(), odd.clone(), data.clone()]), &clip);
    reads(&riff(&[plain(), data.clone(), odd.clone(), data.clone()]), &clip);
    reads(&riff(&[data.clone(), odd.clone(), plain()]), &clip);
    reads(&riff(&[odd, data, empty, extensible()]), &clip);
}

/// With lengths in the RIFF head and the data chunk.
fn with_lengths(clip: &[i16], riff_size: u32, data_size: u32) -> Vec<u8> {
    let mut bytes = riff(&[plain(), chunk(b"data", &raw(clip))]);
    bytes[4..8].copy_from_slice(&riff_size.to_le_bytes());
    bytes[40..44].copy_from_slice(&data_size.to_le_bytes());
    bytes
}

#[test]
fn streamed_lengths() {
    let clip = sound(500, 3);
    reads(&with_lengths(&clip, u32::MAX, u32::MAX), &clip);
    reads(&with_lengths(&clip, 0, u32::MAX), &clip);
    reads(&with_lengths(&clip, 0, 0), &clip);
    reads(&with_lengths(&clip, u32::MAX, 0), &clip);
    reads(&with_lengths(&clip, 12, 1000), &clip);
    // What espeak-ng, sox and arecord say in a pipe.
    for size in [0x7fff_f000_u32, 0x7fff_ffb8, 0x8000_0000, 0xffff_fff0] {
        reads(&with_lengths(&clip, size.wrapping_add(36), size), &clip);
    }
    reads(&with_lengths(&clip, 0x7fff_f024, 0), &clip);
}

#[test]
fn a_length_can_be_ignored() {
    let clip = sound(500, 4);
    let line = "encode --ignore-length in.wav out.dspc";
    for size in [0, 1, 10, 1000, 2000, 0x7fff_f000, u32::MAX] {
        reads_with(line, &with_lengths(&clip, 1036, size), &clip);
    }
    let mut half = with_lengths(&clip, 1036, 5000);
    half.push(9);
    reads_with(line, &half, &clip);
}
