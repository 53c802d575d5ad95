//! The headers of an image's frames with the entries that repeat them, and what of an image does not count.

use crate::damage::{ENTRY, HEAD, has_loop, loop_place, table};
use crate::reader::long;

/// The bytes of a frame, and its samples.
const FRAME: usize = 8;
const SAMPLES: usize = 14;

/// The frames of an image.
pub fn frame_count(image: &[u8]) -> usize {
    (long(image, 4) as usize).div_ceil(SAMPLES)
}

/// The frames of a whole block.
pub fn frames_of_a_block(image: &[u8]) -> usize {
    long(image, 12) as usize / FRAME
}

/// Where the header of a frame stands.
pub fn header_place(image: &[u8], frame: usize) -> usize {
    table(image) + FRAME * frame
}

/// The frame that holds the loop's start, where there is a loop.
pub fn frame_of_loop(image: &[u8]) -> Option<usize> {
    has_loop(image).then(|| long(image, loop_place(image)) as usize / SAMPLES)
}

/// Puts a frame's header, with the entry of the block that it begins and that of the loop that starts in it.
pub fn put_header(image: &mut [u8], frame: usize, header: u8) {
    let place = header_place(image, frame);
    image[place] = header;
    let per_block = frames_of_a_block(image);
    if frame % per_block == 0 {
        image[HEAD + ENTRY * (frame / per_block) + 9] = header;
    }
    if frame_of_loop(image) == Some(frame) {
        image[loop_place(image) + 9] = header;
    }
}

/// The image with bits of a frame's header altered, with what repeats it.
pub fn with_header(image: &[u8], frame: usize, bits: u8) -> Vec<u8> {
    let mut altered = image.to_vec();
    put_header(&mut altered, frame, image[header_place(image, frame)] ^ bits);
    altered
}

/// The bytes of an image, S.
pub fn whole(image: &[u8]) -> usize {
    let last = frame_count(image) - 1;
    let samples = long(image, 4) as usize - SAMPLES * last;
    header_place(image, last) + 1 + samples.div_ceil(2)
}

/// The byte that has the spare nibble, where the count of samples is odd.
pub fn spare_place(image: &[u8]) -> Option<usize> {
    (long(image, 4) % 2 == 1).then(|| whole(image) - 1)
}
