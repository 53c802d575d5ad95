//! What is not read as WAV, and the words for it.

use crate::support::{Folder, chunk, format, image, raw, riff, sound, wav};

#[track_caller]
fn refuses(bytes: &[u8], words: &str) {
    let folder = Folder::new();
    folder.write("in.wav", bytes);
    folder.write("out.dspc", "old");
    folder.run("encode in.wav out.dspc").expect(3, words);
    assert_eq!(folder.read("out.dspc"), b"old");
    assert_eq!(folder.names(), ["in.wav", "out.dspc"]);
}

fn of_format(tag: u16, channels: u16, bits: u16) -> Vec<u8> {
    let data = chunk(b"data", &raw(&sound(120, 1)));
    riff(&[chunk(b"fmt ", &format(tag, channels, 32_000, bits)), data])
}

#[test]
fn formats() {
    refuses(&of_format(1, 2, 16), "the WAV file has 2 channels; a clip has one");
    refuses(&of_format(1, 0, 16), "the WAV file has 0 channels");
    refuses(&of_format(1, 6, 24), "the WAV file has 6 channels");
    for bits in [8, 12, 24, 32] {
        refuses(&of_format(1, 1, bits), &format!("the WAV file has {bits} bits a sample"));
    }
    refuses(&of_format(3, 1, 32), "samples are floating point");
    refuses(&of_format(6, 1, 8), "samples are A-law");
    refuses(&of_format(7, 1, 8), "samples are µ-law");
    refuses(&of_format(2, 1, 4), "samples are Microsoft ADPCM");
    refuses(&of_format(0x11, 1, 4), "samples are IMA ADPCM");
    refuses(&of_format(0x55, 1, 16), "samples are MP3");
    refuses(&of_format(0x1234, 1, 16), "samples are of format 0x1234");
    refuses(&of_format(0xfffe, 1, 16), "samples are of an unknown subformat");
}

#[test]
fn subformats_and_aligns() {
    let mut body = format(0xfffe, 1, 32_000, 32);
    body.extend([22, 0, 32, 0, 4, 0, 0, 0, 3, 0]);
    body.extend([0, 0, 0, 0, 0x10, 0, 0x80, 0, 0, 0xaa, 0, 0x38, 0x9b, 0x71]);
    let data = chunk(b"data", &raw(&sound(120, 1)));
    refuses(&riff(&[chunk(b"fmt ", &body), data.clone()]), "samples are floating point");
    body[39] = 0;
    refuses(&riff(&[chunk(b"fmt ", &body), data.clone()]), "of an unknown subformat");
    let mut body = format(1, 1, 32_000, 16);
    body[12] = 4;
    refuses(&riff(&[chunk(b"fmt ", &body), data]), "the WAV file says 16 bits in 4 bytes");
}

#[test]
fn containers() {
    let with_mark = |mark: &[u8; 4]| {
        let mut bytes = wav(&sound(100, 1), 32_000);
        bytes[..4].copy_from_slice(mark);
        bytes
    };
    refuses(b"", "empty, and not a WAV file");
    refuses(b"RIFF", "a RIFF file, but not a WAV file");
    refuses(b"RIFF\0\0\0\0AVI ", "a RIFF file, but not a WAV file");
    refuses(&with_mark(b"RIFX"), "big-endian");
    refuses(&with_mark(b"RF64"), "64-bit WAV file");
    refuses(&with_mark(b"BW64"), "64-bit WAV file");
    let others = [
        (&b"FORM\0\0\0\x20AIFFCOMM"[..], "an AIFF file"),
        (b".snd\0\0\0\x18", "an AU file"),
        (b"riff\x2e\x91\xcf\x11\xa5\xd6", "a Wave64 file"),
        (b"fLaC\0\0\0\x22", "a FLAC file"),
        (b"OggS\0\x02", "an Ogg file"),
        (b"ID3\x03", "an MP3 file"),
        (b"\0\0\0\x20ftypM4A ", "an MP4 file"),
        (b"RF64\xff\xff\xff\xffWAVE", "a 64-bit WAV file (RF64)"),
    ];
    for (bytes, kind) in others {
        refuses(bytes, kind);
        refuses(bytes, "`ffmpeg -i IN -ac 1 -c:a pcm_s16le OUT.wav` serves every kind");
    }
    for (channels, bits) in [(2, 16), (1, 24), (6, 32)] {
        refuses(&of_format(1, channels, bits), "`ffmpeg -i IN -ac 1 -c:a pcm_s16le OUT.wav`");
    }
    refuses(&with_mark(b"what"), "not a WAV file; headerless samples are read with --raw");
    refuses(&image(&sound(100, 1), 32_000, 80), "a clip image already: `decode`");
}

#[test]
fn lengths() {
    let clip = sound(100, 1);
    let whole = wav(&clip, 32_000);
    for len in 0..whole.len() {
        let words = match len {
            0..36 => "",
            36..44 => "the WAV file ends before its samples",
            _ => "cut short; --ignore-length takes what is there",
        };
        refuses(&whole[..len], words);
    }
    refuses(&riff(&[chunk(b"data", &raw(&clip))]), "no fmt chunk");
    refuses(&riff(&[chunk(b"fmt ", &[1; 15])]), "fmt chunk is cut short");
    let mut odd = whole.clone();
    odd[40] = 199;
    refuses(&odd, "end in the middle of one");
    let mut streamed = whole[..whole.len() - 1].to_vec();
    streamed[40..44].fill(0xff);
    refuses(&streamed, "end in the middle of one");
}
