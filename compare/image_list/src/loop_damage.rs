//! Damages of a loop's entry.

use crate::damage::{HEAD, block_count, has_loop, loop_place, table};
use crate::reader::long;
use clip_list::random_loop;
use oracle::random::Random;

/// Alters what an image says of its loop, or whether it has one.
pub fn damage_loop(random: &mut Random, image: &mut [u8]) {
    let place = HEAD - 6 + random.below(2);
    if !has_loop(image) {
        image[place] ^= [1, 1 << random.below(8)][random.below(2)];
        return;
    }
    match random.below(8) {
        0 => image[place] ^= [1, 1 << random.below(8)][random.below(2)],
        1..4 => image[loop_place(image) + random.below(16)] ^= 1 << random.below(8),
        4 | 5 => ends(random, image),
        6 => header(random, image),
        _ => {
            let history = loop_place(image) + 10;
            image[history..history + 4].fill_with(|| random.bits() as u8);
        }
    }
}

/// Where the header of the frame that holds the loop's start stands.
pub fn loop_frame(image: &[u8]) -> usize {
    table(image) + 8 * (long(image, loop_place(image)) as usize / 14)
}

/// Puts the ends of a loop, and the header of the frame that holds its start.
pub fn put_ends(image: &mut [u8], start: u32, end: u32) {
    let place = loop_place(image);
    image[place..place + 4].copy_from_slice(&start.to_be_bytes());
    image[place + 4..place + 8].copy_from_slice(&end.to_be_bytes());
    if let Some(header) = image.get(loop_frame(image)) {
        (image[place + 8], image[place + 9]) = (0, *header);
    }
}

/// Puts ends near the limits, or of another loop; sometimes with its frame's header.
fn ends(random: &mut Random, image: &mut [u8]) {
    let place = loop_place(image);
    let [total, block] = [4, 12].map(|place| long(image, place));
    let [start, end] = [place, place + 4].map(|place| long(image, place));
    let other = random_loop(random, total, block);
    let limits = [(start, start), (end, start), (start, total), (start, total + 1), (total, total)];
    let (start, end) = match random.below(8) {
        0..5 => limits[random.below(limits.len())],
        5 => (random.bits() as u32, random.bits() as u32),
        _ => (other.start, other.end),
    };
    let before = [image[place + 8], image[place + 9]];
    put_ends(image, start, end);
    if random.below(3) == 0 {
        image[place + 8..place + 10].copy_from_slice(&before);
    }
}

/// Alters the header of the loop's frame, sometimes with all entries that repeat it.
fn header(random: &mut Random, image: &mut [u8]) {
    let frame = loop_frame(image);
    image[frame] = random.bits() as u8;
    if random.below(2) == 0 {
        image[loop_place(image) + 9] = image[frame];
    }
    for place in (0..block_count(image)).map(|k| HEAD + 16 * k) {
        if long(image, place) as usize == frame && random.below(4) > 0 {
            image[place + 9] = image[frame];
        }
    }
}
