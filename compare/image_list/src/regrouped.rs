//! The bodies of an image in blocks of another size.

use crate::damage::{HEAD, has_loop, loop_place, table};
use crate::headers::whole;
use crate::reader::open;
use clip_list::{block_count, bytes};
use oracle::{SAMPLES_PER_FRAME, address_to_sample};

/// The image in blocks of B bytes, each with the history that the image leaves before it; one that is not played stays as it is.
pub fn regrouped(image: &[u8], block: u32) -> Vec<u8> {
    let Ok(opened) = open(image) else { return image.to_vec() };
    let Ok((samples, _)) = opened.play_all(usize::MAX) else { return image.to_vec() };
    let bodies = &image[table(image)..whole(image)];
    let blocks = block_count(opened.total, block) as usize;
    let loop_entry = if has_loop(image) { &image[loop_place(image)..][..16] } else { &[] };
    let mut other = image[..HEAD].to_vec();
    other[12..16].copy_from_slice(&block.to_be_bytes());
    other[52..56].copy_from_slice(&(blocks as u32).to_be_bytes());
    let first = HEAD + 16 * blocks + loop_entry.len();
    for (k, body) in bodies.chunks(block as usize).enumerate() {
        let before = k * block as usize / 8 * SAMPLES_PER_FRAME;
        let history = match before {
            0 => opened.entries[0].context.last_samples,
            _ => [samples[before - 1], samples[before - 2]],
        };
        let left = address_to_sample(16 * (block as usize / 8)).min(samples.len() - before);
        other.extend(((first + k * block as usize) as u32).to_be_bytes());
        other.extend((nibbles(left) as u32).to_be_bytes());
        other.extend([0, body[0]]);
        other.extend(bytes(&history));
        other.extend([0; 2]);
    }
    [&other[..], loop_entry, bodies].concat()
}

/// The length of samples in frames of fourteen.
fn nibbles(samples: usize) -> usize {
    samples + 2 * samples.div_ceil(SAMPLES_PER_FRAME)
}
