//! Opening, playing and comparing images both ways.

use crate::convert::{context, refused};
use crate::tally::Tally;
use crate::turns::{compare_told, compare_turns, samples_of_loop};
use doilycairn::{Head, Image, Played, Refusal};
use image_list::reader::{self, Refused};
use image_list::{Sameness, sameness};
use oracle::random::Random;
use oracle::{Coefficients, FrameContext, address_to_sample};

/// N, rate, B, gain and K; and the coefficients.
type Headed = Result<([u32; 5], Coefficients), Refused>;

fn head(head: &Head) -> ([u32; 5], Coefficients) {
    let Head { total, rate, block, gain, coefficients, blocks } = *head;
    ([total, rate, block, gain.into(), blocks], coefficients.0)
}

fn right_head(opened: &reader::Opened) -> ([u32; 5], Coefficients) {
    let reader::Opened { total, rate, block, gain, coefficients, .. } = *opened;
    ([total, rate, block, gain.into(), opened.entries.len() as u32], coefficients)
}

/// Opens an image.
pub fn compare_open(bytes: &[u8], tally: &mut Tally) {
    let library: Headed = Image::open(bytes).map(|image| head(image.head())).map_err(refused);
    let right = reader::open(bytes).map(|opened| right_head(&opened));
    tally.compare("open", &bytes, library, right);
    if let (Ok(image), Ok(opened)) = (Image::open(bytes), reader::open(bytes)) {
        compare_told(bytes, &image, &opened, tally);
    }
}

/// Finds and plays a block of an image that opens, with any room.
pub fn compare_block(random: &mut Random, bytes: &[u8], k: usize, tally: &mut Tally) {
    let (Ok(image), Ok(opened)) = (Image::open(bytes), reader::open(bytes)) else { return };
    compare_body(&image, bytes, &opened, k, tally);
    let needed = opened.entries.get(k).map_or(3, |entry| address_to_sample(entry.nibbles));
    let room = match random.below(8) {
        0 => random.below(needed),
        _ => needed + random.below_one(&[1, 20]),
    };
    let library = played_to(room, |out| image.play_block(k as u32, out));
    let right = right_played_to(room, opened.play(k, room));
    tally.compare("play_block", &(bytes, k, room), library, right);
}

/// The count of samples and the context after them, and the output.
type Output = (Result<(usize, FrameContext), Refused>, Vec<i16>);

/// What an output holds before a call.
pub fn pattern(room: usize) -> Vec<i16> {
    (0..room).map(|place| (place * 251) as i16).collect()
}

fn played_to(room: usize, play: impl FnOnce(&mut [i16]) -> Result<Played, Refusal>) -> Output {
    let mut out = pattern(room);
    let played = play(&mut out);
    (played.map(|played| (played.samples, context(played.context))).map_err(refused), out)
}

fn right_played_to(room: usize, played: reader::Played) -> Output {
    let mut out = pattern(room);
    let right = played.map(|(samples, after)| {
        out[..samples.len()].copy_from_slice(&samples);
        (samples.len(), after)
    });
    (right, out)
}

/// The body's place and length, the length in nibbles, the coefficients and the context.
type Body = Result<([usize; 3], Coefficients, FrameContext), Refused>;

fn compare_body(image: &Image, bytes: &[u8], opened: &reader::Opened, k: usize, tally: &mut Tally) {
    let start = bytes.as_ptr().addr();
    let library: Body = image.block(k as u32).map_err(refused).map(|block| {
        let place = block.bytes.as_ptr().addr() - start;
        let numbers = [place, block.bytes.len(), block.nibbles as usize];
        (numbers, block.coefficients.0, context(block.context))
    });
    let right: Body = opened.entry(k).map(|entry| {
        let numbers = [entry.offset, opened.body(entry).len(), entry.nibbles];
        (numbers, opened.coefficients, entry.context)
    });
    tally.compare("block", &(bytes, k), library, right);
}

/// Plays all blocks of an image by one call, with too little room and with room to spare, and one after the other; and its loop twice.
pub fn compare_play(bytes: &[u8], tally: &mut Tally) {
    let (Ok(image), Ok(opened)) = (Image::open(bytes), reader::open(bytes)) else { return };
    let total = opened.total as usize;
    for room in [total - 1, total, total + 3] {
        let library = played_to(room, |out| image.play_into(out));
        let right = right_played_to(room, opened.play_all(room));
        tally.compare("play_into", &(bytes, room), library, right);
    }
    let right = opened.play_all(total).map(|(samples, _)| samples);
    tally.compare("play", &bytes, image.play().map_err(refused), right.clone());
    let in_turn = image.samples().map(Iterator::collect).map_err(refused);
    tally.compare("samples", &bytes, in_turn, right);
    let needed = 2 * samples_of_loop(&opened);
    compare_turns(bytes, &Ok(opened), 2, needed + 1, tally);
}

/// Compares two images, by all that counts and by the sound alone.
pub fn compare_same(first: &[u8], second: &[u8], tally: &mut Tally) {
    compare_sameness(first, second, &sameness(first, second), tally);
}

/// Compares two images, of which it is told how they compare.
pub fn compare_sameness(
    first: &[u8],
    second: &[u8],
    right: &Result<Sameness, Refused>,
    tally: &mut Tally,
) {
    let input = (first, second);
    let library = doilycairn::same(first, second).map_err(refused);
    tally.compare("doilycairn::same", &input, library, right.map(|right| right.same));
    let library = doilycairn::sounds_same(first, second).map_err(refused);
    let right = right.map(|right| right.sounds_same);
    tally.compare("doilycairn::sounds_same", &input, library, right);
}
