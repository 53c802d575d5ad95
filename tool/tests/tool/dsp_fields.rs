//! .dsp files that are refused: by which number, and which field is named.

use crate::damage::names;
use crate::parse::Value;
use crate::support::*;
use doilycairn::{Image, Refusal, from_dsp};

/// The .dsp file of the ramp of 20 samples, with a loop or without: bodies at 96 and 104, with headers 00 and 07.
pub fn file(points: Option<(u32, u32)>) -> Vec<u8> {
    Image::open(&ramp_image(8, points)).unwrap().to_dsp().unwrap()
}

/// The same with other bytes from a place on.
pub fn with(file: &[u8], at: usize, bytes: &[u8]) -> Vec<u8> {
    let mut file = file.to_vec();
    file[at..at + bytes.len()].copy_from_slice(bytes);
    file
}

/// Expects every command to refuse a file as the library does, with these words after the refusal.
#[track_caller]
pub fn refused(folder: &Folder, file: &[u8], words: &str) {
    let refusal = from_dsp(file, 8).unwrap_err();
    folder.write("bad.dsp", file);
    folder.write("out", "old");
    let said = format!("doilycairn: bad.dsp: {refusal}{words}");
    for command in ["import bad.dsp out", "decode bad.dsp out", "info bad.dsp"] {
        let run = folder.run(command);
        let name = command.split(' ').next().unwrap();
        let said = said.replace("`import --lenient`", &format!("`{name} --lenient`"));
        assert_eq!((run.status, &run.err), (4, &format!("{said}\n")), "{command}");
    }
    assert_eq!(folder.read("out"), b"old");
    let json = Value::of_line(&folder.run("import --json bad.dsp out").out);
    names(json.get("error"), refusal);
    assert_eq!(format!("doilycairn: {}", json.get("error").text("message")), said);
}

#[test]
fn number_25() {
    let folder = Folder::new();
    let good = file(Some((5, 17)));
    refused(&folder, &good[..0], "; it has 0 bytes, and a header 96");
    refused(&folder, &good[..95], "; it has 95 bytes, and a header 96");
    refused(&folder, &good[..96], "; it has 96 bytes, and 20 samples need 108");
    refused(&folder, &good[..107], "; it has 107 bytes, and 20 samples need 108");
    let many = with(&good, 0, &[0xff; 4]);
    refused(&folder, &many, "; it has 108 bytes, and 4,294,967,295 samples need 2,454,267,123");
}

#[test]
fn numbers_4_5_and_13() {
    let folder = Folder::new();
    let good = file(Some((5, 17)));
    refused(&folder, &with(&good, 0, &[0; 4]), "; it has 0");
    refused(&folder, &with(&good, 8, &[0; 4]), "");
    refused(&folder, &with(&good, 32, &[0x80, 0, 0x80, 0]), "");
}

/// More samples than a clip has, in a file that has the bytes for them and is longer than what is kept of one.
#[test]
fn number_4_of_a_long_file() {
    let folder = Folder::new();
    let (total, length) = (60_000_000u32, 96 + (60_000_000u64 + 2 * 4_285_715) / 2);
    folder.write("bad.dsp", with(&file(None), 0, &total.to_be_bytes()));
    let long = std::fs::File::options().write(true).open(folder.path("bad.dsp")).unwrap();
    long.set_len(length).unwrap();
    folder.run("import bad.dsp x").expect(4, "(refusal 4); it has 60,000,000\n");
    long.set_len(length - 1).unwrap();
    folder.run("import bad.dsp x").expect(4, "(refusal 25); it has 34,285,810 bytes, and 60,000,0");
    assert!(!folder.has("x"));
}

/// Whether the clip has a loop, from 5 up to 17; what stands where; and what is said of it.
const FIELDS: [(bool, usize, &[u8], &str); 22] = [
    (false, 4, &[0, 0, 0, 25], "byte 4: the nibble count is 25 and not 24, that of 20 samples"),
    (false, 12, &[0, 2], "byte 12: the loop flag is 2 and not 0 or 1"),
    (false, 14, &[0, 1], "byte 14: the format number is 1 and not 0"),
    (false, 24, &[0, 0, 0, 3], "byte 24: the start address is 3 and not 2"),
    (
        false,
        62,
        &[1, 0],
        "byte 62: the first header is 01 00, and the first frame at byte 96 begins with 00",
    ),
    (
        false,
        96,
        &[0x1b],
        "byte 62: the first header is 00 00, and the first frame at byte 96 begins with 1b",
    ),
    (
        false,
        74,
        &[0, 2],
        "byte 74: the channel count is 2 and not 0: bodies of several channels are interleaved",
    ),
    (
        true,
        74,
        &[1, 0, 0, 0, 0, 8],
        "byte 74: the channel count is 256 and not 0: bodies of several channels are interleaved; nor is byte 76",
    ),
    (
        true,
        16,
        &[0, 0, 0, 0],
        "byte 16: the loop start address is 0 and in a frame's header: a sample's is 2 to 15 above a multiple of 16",
    ),
    (
        true,
        16,
        &[0, 0, 0, 17],
        "byte 16: the loop start address is 17 and in a frame's header: a sample's is 2 to 15 above a multiple of 16",
    ),
    (
        true,
        16,
        &[0, 0, 0, 24],
        "byte 16: the loop start address is 24 and above that of the last sample, 23",
    ),
    (
        true,
        20,
        &[0, 0, 0, 24],
        "byte 20: the address of the loop's last sample is 24 and above that of the last sample, 23",
    ),
    (
        true,
        20,
        &[0, 0, 0, 16],
        "byte 20: the address of the loop's last sample is 16 and in a frame's header: a sample's is 2 to 15 above a multiple of 16",
    ),
    (
        true,
        20,
        &[0, 0, 0, 6],
        "byte 20: the address of the loop's last sample is 6 and below the loop start address, 7",
    ),
    (
        true,
        16,
        &[0xff; 8],
        "byte 16: the loop start address is 4,294,967,295 and above that of the last sample, 23; nor is byte 20",
    ),
    (
        true,
        68,
        &[0, 7],
        "byte 68: the loop header is 00 07, and the frame of its start at byte 96 begins with 00",
    ),
    (
        true,
        16,
        &[0, 0, 0, 18],
        "byte 68: the loop header is 00 00, and the frame of its start at byte 104 begins with 07",
    ),
    (true, 12, &[1, 1], "byte 12: the loop flag is 257 and not 0 or 1"),
    (
        false,
        12,
        &[0, 1],
        "byte 16: the loop start address is 0 and in a frame's header: a sample's is 2 to 15 above a multiple of 16; nor is byte 20",
    ),
    (false, 4, &[0; 4], "byte 4: the nibble count is 0 and not 24, that of 20 samples"),
    (true, 14, &[0xff, 0xff], "byte 14: the format number is 65,535 and not 0"),
    (true, 24, &[1, 0, 0, 2], "byte 24: the start address is 16,777,218 and not 2"),
];

#[test]
fn each_field_is_named() {
    let folder = Folder::new();
    for (is_looped, at, bytes, words) in FIELDS {
        let good = file(is_looped.then_some((5, 17)));
        refused(&folder, &with(&good, at, bytes), &format!("; {words}"));
    }
}

/// The first is named in words, in the library's sequence, and the others by their places.
#[test]
fn many_fields_at_once() {
    let folder = Folder::new();
    let mut bytes = file(Some((5, 17)));
    let places = [4, 14, 24, 75, 76, 62, 20];
    let first = [
        "byte 4: the nibble count is 16,777,240 and not 24, that of 20 samples; nor are bytes 14, 24, 74, 76, 62 and 20",
        "byte 14: the format number is 256 and not 0; nor are bytes 24, 74, 76, 62 and 20",
        "byte 24: the start address is 16,777,218 and not 2; nor are bytes 74, 76, 62 and 20",
        "byte 74: the channel count is 9 and not 0: bodies of several channels are interleaved; nor are bytes 76, 62 and 20",
        "byte 76: the rest of the header is 01 00 00 00 00 00 00 00 00 00 00 00 00 00 00 00 00 00 00 00 and not zeros; nor are bytes 62 and 20",
        "byte 62: the first header is 01 00, and the first frame at byte 96 begins with 00; nor is byte 20",
        "byte 20: the address of the loop's last sample is 16,777,236 and above that of the last sample, 23",
    ];
    for place in places {
        bytes[place] = if place == 75 { 9 } else { 1 };
    }
    for (place, words) in places.into_iter().zip(first) {
        refused(&folder, &bytes, &format!("; {words}"));
        bytes[place] = 0;
    }
    assert_eq!(bytes, file(Some((5, 17))));
}

/// Every bit of the header: the program refuses what the library refuses, and names a field that has the bit, or one that speaks of it.
#[test]
fn every_byte_of_the_header() {
    let folder = Folder::new();
    let fields = [0, 4, 8, 12, 14, 16, 20, 24, 28, 60, 62, 64, 68, 70, 72, 74, 76, 96];
    for good in [file(None), file(Some((5, 17)))] {
        for at in 0..96 {
            let bytes = with(&good, at, &[good[at] ^ 4]);
            folder.write("in.dsp", &bytes);
            let run = folder.run("import in.dsp out");
            match from_dsp(&bytes, 8192) {
                Ok(image) => assert_eq!((run.status, folder.read("out")), (0, image)),
                Err(refusal) => {
                    run.expect(4, &refusal.to_string());
                    let field = *fields.iter().rfind(|field| **field <= at).unwrap();
                    let speaks = match (refusal, at) {
                        (Refusal::FileTooShort, _) => vec![],
                        (_, 0..4) => vec![4],
                        (_, 12..14) => vec![12, 16],
                        (_, 16..20) => vec![16, 20, 68],
                        _ => vec![field],
                    };
                    let named = speaks.iter().any(|at| run.err.contains(&format!("; byte {at}: ")));
                    assert!(named || speaks.is_empty(), "{at}: {}", run.err);
                }
            }
        }
    }
}
