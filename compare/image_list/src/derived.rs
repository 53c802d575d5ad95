//! Images derived from one that comparing accepts: some differ from it in what does not count, some in what does.

use crate::damage::{ENTRY, HEAD, PAIRS, block_count, has_loop, loop_place, with_nibble};
use crate::headers::{
    frame_count, frames_of_a_block, header_place, put_header, spare_place, whole, with_header,
};
use crate::loop_damage::put_ends;
use crate::made::Clip;
use crate::reader::long;
use crate::regrouped::regrouped;
use clip_list::{image_of, random_loop};
use oracle::random::Random;

/// The image with a change that does not count, unless a header within a block is heard.
pub fn alike(random: &mut Random, clip: &Clip, image: &[u8]) -> Vec<u8> {
    let mut other = image.to_vec();
    match random.below(8) {
        0 => return image_of(&clip.start, &random.cut(&clip.samples)),
        1 | 2 => top_bits(random, &mut other),
        3 | 4 => spare_nibble(random, &mut other),
        5 => bytes_after(random, &mut other),
        _ => header_within(random, &mut other),
    }
    other
}

/// Alters the top bits of one header, of some or of all.
fn top_bits(random: &mut Random, image: &mut Vec<u8>) {
    let (frames, one_in) = (frame_count(image), [1, 2, 8][random.below(3)]);
    for frame in 0..frames {
        if random.below(one_in) == 0 {
            *image = with_header(image, frame, 0x80);
        }
    }
    *image = with_header(image, random.below(frames), 0x80);
}

/// Alters the spare nibble where there is one, else a top bit.
fn spare_nibble(random: &mut Random, image: &mut Vec<u8>) {
    match spare_place(image) {
        Some(place) => image[place] ^= 1 + random.below(15) as u8,
        None => *image = with_header(image, random.below(frame_count(image)), 0x80),
    }
}

/// Puts other bytes after the image, or none.
fn bytes_after(random: &mut Random, image: &mut Vec<u8>) {
    image.truncate(whole(image));
    image.extend((0..random.below_one(&[1, 20])).map(|_| random.bits() as u8));
}

/// Alters the header of a frame that begins no block, with the entry of a loop that starts in it, else a top bit.
fn header_within(random: &mut Random, image: &mut Vec<u8>) {
    let frame = random.below(frame_count(image));
    let bits = match frame % frames_of_a_block(image) {
        0 => 0x80,
        _ => [1 << random.below(4), 0x10 << random.below(3), random.bits() as u8][random.below(3)],
    };
    *image = with_header(image, frame, bits);
}

/// The image with a change that counts, heard or not; some of the drawn values are those that it has.
pub fn altered_field(random: &mut Random, clip: &Clip, image: &[u8]) -> Vec<u8> {
    let mut other = image.to_vec();
    match random.below(12) {
        0 => alter(random, &mut other, 8, 4),
        1 => alter(random, &mut other, 48, 2),
        2 => alter(random, &mut other, PAIRS, 32),
        3 | 4 => histories(random, &mut other),
        5 => header(random, &mut other),
        6 => return other_loop(random, clip, image),
        7 => return clip.image_of_first(1 + random.below(clip.samples.len())),
        8 => return clip.image_at(block_size(random)),
        9 => return regrouped(image, block_size(random) / 8 * 8),
        10 => block_size_alone(random, &mut other),
        _ => return with_nibble(random, image),
    }
    other
}

/// Any block size, small ones more often.
fn block_size(random: &mut Random) -> u32 {
    8 + random.below_one(&[16, 40, 40, 200, 65_529]) as u32
}

/// Alters one byte of some from a place on, by a bit or at random.
fn alter(random: &mut Random, image: &mut [u8], place: usize, count: usize) {
    let place = place + random.below(count);
    image[place] ^= [1 << random.below(8), random.bits() as u8][random.below(2)];
}

/// Alters the history of an entry, or of the loop's.
fn histories(random: &mut Random, image: &mut [u8]) {
    let entries = block_count(image) + usize::from(has_loop(image));
    let k = [0, entries - 1, random.below(entries)][random.below(3)];
    alter(random, image, HEAD + ENTRY * k + 10, 4);
}

/// Alters any header, with what repeats it.
fn header(random: &mut Random, image: &mut [u8]) {
    let frame = random.below(frame_count(image));
    let bits = [1 << random.below(8), random.bits() as u8][random.below(2)];
    let header = image[header_place(image, frame)] ^ bits;
    put_header(image, frame, header);
}

/// The clip with another loop or none, or the image with other ends of its loop.
fn other_loop(random: &mut Random, clip: &Clip, image: &[u8]) -> Vec<u8> {
    let other = random_loop(random, long(image, 4), long(image, 12));
    let mut altered = image.to_vec();
    match has_loop(image) && random.below(2) == 0 {
        true => {
            let [start, end] = [0, 4].map(|part| long(image, loop_place(image) + part));
            let ends = [(start.min(other.end - 1), other.end), (other.start, end.max(other.end))];
            let (start, end) = ends[random.below(2)];
            put_ends(&mut altered, start, end);
            altered
        }
        false if long(image, 4) == clip.start.total => {
            clip.image_with([None, Some(other)][random.below(2)])
        }
        false => altered,
    }
}

/// Puts another B where the image has one block under it too.
fn block_size_alone(random: &mut Random, image: &mut [u8]) {
    let least = 8 * frame_count(image) as u32;
    if block_count(image) == 1 && least <= 65_536 {
        let more = random.below(65_536 - least as usize + 1) as u32 / 8 * 8;
        image[12..16].copy_from_slice(&(least + more).to_be_bytes());
    }
}
