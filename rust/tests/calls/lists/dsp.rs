//! The list of exports and imports of .dsp files.

use super::{bytes, digest, digits, list, number};
use doilycairn::{Image, dsp_image_size, from_dsp_into};

/// The length of the list's buffers.
const ROOM: usize = 1024;

/// The number of two bytes.
fn length(bytes: &[u8]) -> usize {
    u16::from_be_bytes([bytes[0], bytes[1]]).into()
}

/// What a call of a source is lent, and what it answers and leaves.
fn answer(letter: &str, source: &[u8], record: &[u8], out: &mut [u8]) -> String {
    let block_size = number(&record[4..]);
    let written = match letter {
        "e" => Image::open(source).and_then(|image| image.to_dsp_into(out)),
        "i" => from_dsp_into(source, block_size, out),
        "r" => dsp_image_size(source, block_size),
        _ => panic!("no call has the letter {letter}"),
    };
    let (code, block) =
        written.err().map_or((0, 0), |why| (why.number(), why.block().unwrap_or(0)));
    let bytes = written.unwrap_or(0);
    let line = format!("{code:02x} {block:08x} {bytes:08x} {:010x}", digest(out));
    if record[8] == 0 { line } else { format!("{line} {}", digits(out)) }
}

/// Takes a line, and gives its answer if it has one.
fn take(source: &mut Vec<u8>, out: &mut Vec<u8>, letter: &str, record: &[u8]) -> Option<String> {
    match letter {
        "p" => {
            let (place, count) = (length(record), usize::from(record[2]));
            source[place..][..count].copy_from_slice(&record[3..][..count]);
            None
        }
        "s" => {
            std::mem::swap(source, out);
            None
        }
        _ => {
            *out = (0..ROOM).map(|i| (i % 251) as u8).collect();
            let (read, room) = (length(record), length(&record[2..]));
            Some(answer(letter, &source[..read], record, &mut out[..room]))
        }
    }
}

#[test]
fn dsp() {
    let (lines, answers) = list("dsp_list");
    let (mut source, mut out) = (vec![0; ROOM], vec![0; ROOM]);
    let mut answers = answers.iter();
    for line in &lines {
        if let Some(answer) = take(&mut source, &mut out, &line[..1], &bytes(&line[1..])) {
            assert_eq!(
                Some(answer.trim_end()),
                answers.next().map(|line| line.trim_end()),
                "{line}"
            );
        }
    }
    assert_eq!(answers.next(), None);
}
