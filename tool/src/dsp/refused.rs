//! Why a .dsp file is not imported, with what is to be known of it.

use super::fields::{TOTAL, nibbles, wrong};
use super::{HEADER, lenient};
use crate::console::Console;
use crate::failure::Failure;
use crate::input::ImageFile;
use crate::text::{count, counted};
use doilycairn::{Refusal, dsp_image_size};

/// The library's refusal, and what it is for.
pub fn failure(
    file: &mut ImageFile,
    refusal: Refusal,
    block_size: u32,
    console: &Console,
) -> Failure {
    let refusal = of_the_whole(file, refusal);
    let words = match refusal {
        Refusal::FileTooShort => short(file),
        Refusal::BadSampleCount => format!("; it has {}", count(TOTAL.number(&file.bytes))),
        Refusal::BadField => fields(file) + &would_take(file, block_size, console),
        _ => String::new(),
    };
    file.refused(refusal).with(words).with(begins_as(&file.bytes))
}

/// The refusal of a file of which not all bytes were kept: where they are enough for its samples, it is these that are too many.
fn of_the_whole(file: &ImageFile, refusal: Refusal) -> Refusal {
    let is_short = file.bytes.len() < HEADER || file.length < needed(file);
    match refusal {
        Refusal::FileTooShort if !is_short => Refusal::BadSampleCount,
        _ => refusal,
    }
}

/// The bytes that a file of so many samples needs.
fn needed(file: &ImageFile) -> u64 {
    HEADER as u64 + nibbles(TOTAL.number(&file.bytes)).div_ceil(2)
}

/// How short it is.
fn short(file: &ImageFile) -> String {
    let has = counted(file.length, "byte", "bytes");
    if file.bytes.len() < HEADER {
        return format!("; it has {has}, and a header {HEADER}");
    }
    let samples = counted(TOTAL.number(&file.bytes), "sample", "samples");
    format!("; it has {has}, and {samples} need {}", count(needed(file)))
}

/// The first field that is not as listed, in words, and the places of the others.
fn fields(file: &ImageFile) -> String {
    let found = wrong(&file.bytes);
    let Some((first, others)) = found.split_first() else { return String::new() };
    let places: Vec<String> = others.iter().map(|other| other.byte.to_string()).collect();
    let others = match &places[..] {
        [] => String::new(),
        [one] => format!("; nor is byte {one}"),
        [most @ .., last] => format!("; nor are bytes {} and {last}", most.join(", ")),
    };
    format!("; {}{others}", first.at_byte())
}

/// Whether mending would do. The file is mended then, and no longer what it was.
fn would_take(file: &mut ImageFile, block_size: u32, console: &Console) -> String {
    let is_mended = !lenient::mend(&mut file.bytes).is_empty();
    match is_mended && dsp_image_size(&file.bytes, block_size).is_ok() {
        true => format!("; `{} --lenient` would take it", console.command),
        false => String::new(),
    }
}

/// What a file that is none begins with.
fn begins_as(bytes: &[u8]) -> &'static str {
    match bytes {
        [b'D', b'S', b'P', b'C', ..] => "; it begins with DSPC: it is an image already",
        [b'R', b'I', b'F', b'F', ..] => {
            "; it begins with RIFF: it is a WAV file, which `encode` reads"
        }
        _ => "",
    }
}
