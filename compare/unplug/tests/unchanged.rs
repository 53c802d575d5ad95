//! The copied files are the listed ones of unplug f6268d160b, byte for byte.

use std::fs;

/// Each file's path, size and FNV-1a fingerprint.
const FILES: [(&str, usize, u64); 9] = [
    ("audio/cue.rs", 4702, 0xd3697c3b415a1121),
    ("audio/format.rs", 12029, 0xe7ac6823dc7411dd),
    ("audio/format/adpcm.rs", 5045, 0x90806c99a321bc8f),
    ("audio/format/adpcm/decode.rs", 3854, 0x45a217892b09ba79),
    ("audio/format/adpcm/encode.rs", 16892, 0xd3346e90ac20f957),
    ("audio/format/adpcm/vgaudio/coefficients.rs", 8374, 0xb61b9b5730e8d39d),
    ("audio/format/adpcm/vgaudio/encode.rs", 4677, 0x1d3a6fdf3cc8e024),
    ("audio/sample.rs", 37018, 0xbabe5048538517b4),
    ("common/math.rs", 1021, 0x8f2409e8c3222c38),
];

/// The 64-bit FNV-1a fingerprint.
fn fingerprint(bytes: &[u8]) -> u64 {
    bytes.iter().fold(0xcbf29ce484222325, |hash, byte| {
        (hash ^ u64::from(*byte)).wrapping_mul(0x100000001b3)
    })
}

#[test]
fn copied_files_are_the_listed_ones() {
    for (name, size, print) in FILES {
        let bytes = fs::read(format!("{}/tree/{name}", env!("OUT_DIR"))).unwrap();
        assert_eq!((bytes.len(), fingerprint(&bytes)), (size, print), "{name}");
    }
}
