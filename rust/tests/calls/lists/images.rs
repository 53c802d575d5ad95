//! The list of calls on images.

use super::{bytes, digits, digits_of, list, number};
use doilycairn::{FrameContext, Image, Loop, Part, Refusal, same, sounds_same};

/// The longest image of the list.
const MOST: usize = 1024;

/// The number of two bytes.
fn length(bytes: &[u8]) -> usize {
    u16::from_be_bytes([bytes[0], bytes[1]]).into()
}

/// How the answer of a refused call begins: its code, and the block whose entry is bad, else 0.
fn verdict(refusal: Refusal) -> String {
    format!("{:02x} {:08x}", refusal.number(), refusal.block().unwrap_or(0))
}

/// How the answer of an accepted call begins.
const ACCEPTED: &str = "00 00000000";

/// A context's header and its two samples.
fn words(context: FrameContext) -> String {
    format!("{:04x} {}", context.predictor_and_scale, digits_of(&context.last_samples))
}

/// The loop of an image and its context, where there is one.
fn looped(image: &Image) -> String {
    let of = |(looped, context): (Loop, FrameContext)| {
        format!(" {:08x} {:08x} {}", looped.start, looped.end, words(context))
    };
    image.looped().zip(image.loop_context()).map_or(String::new(), of)
}

fn opened(image: &[u8]) -> String {
    let zeros = "0".repeat(64);
    match Image::open(image) {
        Ok(image) => {
            let head = image.head();
            let (numbers, coefficients) = ([head.total, head.rate, head.block], head.coefficients);
            let [total, rate, block] = numbers.map(|number| format!("{number:08x}"));
            let (gain, blocks) = (head.gain, head.blocks);
            let (coefficients, looped) = (digits_of(&coefficients.0), looped(&image));
            format!(
                "{ACCEPTED} {total} {rate} {block} {coefficients} {gain:04x} {blocks:08x}{looped}"
            )
        }
        Err(refusal) => {
            format!("{} 00000000 00000000 00000000 {zeros} 0000 00000000", verdict(refusal))
        }
    }
}

fn body(image: &[u8], k: u32) -> String {
    match Image::open(image).and_then(|image| image.block(k)) {
        Ok(block) => format!("{ACCEPTED} {}", digits(block.bytes)),
        Err(refusal) => verdict(refusal),
    }
}

/// Plays a block, or all.
fn played(image: &[u8], k: Option<u32>, room: usize) -> String {
    let mut out = vec![0x5a5a; room];
    let played = Image::open(image).and_then(|image| match k {
        Some(k) => image.play_block(k, &mut out),
        None => image.play_into(&mut out),
    });
    let verdict = played.err().map_or(ACCEPTED.into(), verdict);
    let (count, context) =
        played.map_or((0, FrameContext::default()), |it| (it.samples, it.context));
    format!("{verdict} {count:08x} {} {}", words(context), digits_of(&out))
}

/// Plays from a sample on.
fn played_from(image: &[u8], first: u32, room: usize) -> String {
    let mut out = vec![0x5a5a; room];
    let part = Image::open(image).and_then(|image| image.play_from(first, &mut out));
    let verdict = part.err().map_or(ACCEPTED.into(), verdict);
    let Part { samples, blocks } = part.unwrap_or(Part { samples: 0, blocks: 0 });
    format!("{verdict} {samples:08x} {blocks:08x} {}", digits_of(&out))
}

/// Plays the loop.
fn played_loop(image: &[u8], times: u32, room: usize) -> String {
    let mut out = vec![0x5a5a; room];
    let turns = Image::open(image).and_then(|image| image.play_loop_into(times, &mut out));
    let verdict = turns.err().map_or(ACCEPTED.into(), verdict);
    format!("{verdict} {:08x} {}", turns.unwrap_or(0), digits_of(&out))
}

fn compared(answer: Result<bool, Refusal>) -> String {
    match answer {
        Ok(is_same) => format!("{ACCEPTED} {:08x}", u8::from(is_same)),
        Err(refusal) => format!("{} {:08x}", verdict(refusal), 0),
    }
}

/// Takes a line, and gives its answer if it has one.
fn take(images: &mut [Vec<u8>; 2], letter: &str, record: &[u8]) -> Option<String> {
    let put = match letter {
        "b" => &mut images[..],
        "f" => &mut images[..1],
        "g" => &mut images[1..],
        _ => &mut [],
    };
    if !put.is_empty() {
        let (place, count) = (length(record), usize::from(record[2]));
        let put_into =
            |image: &mut Vec<u8>| image[place..][..count].copy_from_slice(&record[3..][..count]);
        put.iter_mut().for_each(put_into);
        return None;
    }
    let (first, second) = (&images[0][..length(record)], &images[1][..length(&record[2..])]);
    let (k, room) = (number(&record[4..]), length(&record[8..]));
    Some(match letter {
        "o" => opened(first),
        "k" => body(first, k),
        "p" => played(first, Some(k), room),
        "a" => played(first, None, room),
        "m" => played_from(first, k, room),
        "t" => played_loop(first, k, room),
        "s" => compared(same(first, second)),
        "r" => compared(same(second, first)),
        "h" => compared(sounds_same(first, second)),
        "v" => compared(sounds_same(second, first)),
        _ => panic!("no call has the letter {letter}"),
    })
}

#[test]
fn images() {
    let (lines, answers) = list("image_list");
    let mut images = [vec![0; MOST], vec![0; MOST]];
    let mut answers = answers.iter();
    for line in &lines {
        if let Some(answer) = take(&mut images, &line[..1], &bytes(&line[1..])) {
            assert_eq!(answer.trim_end(), answers.next().unwrap().trim_end(), "{line}");
        }
    }
    assert_eq!(answers.next(), None);
}
