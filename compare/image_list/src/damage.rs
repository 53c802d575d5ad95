//! Damaged images.

use crate::fault::{FAULTS, change};
use crate::loop_damage::damage_loop;
use crate::reader::long;
use oracle::random::Random;

/// The bytes of the head and of an entry.
pub const HEAD: usize = 56;
pub const ENTRY: usize = 16;

/// The mark's last byte, and the first pair of coefficients.
pub const MARK_END: usize = 3;
pub const PAIRS: usize = 16;

/// A pair of -32,768 twice.
pub const LOWEST: [u8; 4] = [0x80, 0, 0x80, 0];

/// The count of blocks that an image says.
pub fn block_count(image: &[u8]) -> usize {
    long(image, 52) as usize
}

/// Whether an image says that it has a loop.
pub fn has_loop(image: &[u8]) -> bool {
    image[50..52] == [0, 1]
}

/// Where the entry of a loop stands.
pub fn loop_place(image: &[u8]) -> usize {
    HEAD + ENTRY * block_count(image)
}

/// The bytes of head and table, the entry of a loop counted.
pub fn table(image: &[u8]) -> usize {
    loop_place(image) + if has_loop(image) { ENTRY } else { 0 }
}

/// Where the body of a block begins, as K and B say.
pub fn body(image: &[u8], k: usize) -> usize {
    table(image) + long(image, 12) as usize * k
}

/// The image with one nibble changed that is not a header's, or a byte after the image.
pub fn with_nibble(random: &mut Random, image: &[u8]) -> Vec<u8> {
    let bodies = table(image);
    let from = bodies + random.below(image.len() - bodies);
    let mut changed = image.to_vec();
    if let Some(place) = (from..image.len()).find(|place| (place - bodies) % 8 > 0) {
        changed[place] ^= (1 + random.below(15) as u8) << (4 * random.below(2));
    }
    changed
}

/// An image with one damage or several.
pub fn damaged(random: &mut Random, image: &[u8]) -> Vec<u8> {
    let mut damaged = image.to_vec();
    let table = table(image);
    match random.below(13) {
        0 => put(&mut damaged, random.below(table), random.bits() as u8),
        1 => damaged[random.below(table)] ^= 1 << random.below(8),
        2 => put(&mut damaged, random.below(image.len()), random.bits() as u8),
        3 => damaged.truncate(random.below(image.len())),
        4 => field(random, &mut damaged),
        5 => lowest_pair(random, &mut damaged),
        6 => entry(random, &mut damaged),
        7 => faults(random, &mut damaged, 1),
        8 => faults(random, &mut damaged, 2),
        9 | 10 => damage_loop(random, &mut damaged),
        11 => {
            one_more(random, &mut damaged);
            damage_loop(random, &mut damaged);
        }
        _ => (0..3).for_each(|_| field(random, &mut damaged)),
    }
    damaged
}

/// A damage beside one of the loop's.
fn one_more(random: &mut Random, image: &mut [u8]) {
    match random.below(4) {
        0 => image[MARK_END] ^= change(random),
        1 => lowest_pair(random, image),
        _ => faults(random, image, 1),
    }
}

fn put(image: &mut [u8], place: usize, value: u8) {
    image[place] = value;
}

/// Puts a value near the right one, or at a limit, to N, rate, B or K.
fn field(random: &mut Random, image: &mut [u8]) {
    let place = [4, 8, 12, 52][random.below(4)];
    let now = long(image, place);
    let near = now.wrapping_add_signed(random.within(16));
    let limits = [0, 8, 14_680_064, 14_680_065, 65_536, 65_544, u32::MAX];
    let value = [near, now ^ 8, limits[random.below(limits.len())]][random.below(3)];
    image[place..place + 4].copy_from_slice(&value.to_be_bytes());
}

/// Makes a pair the lowest.
fn lowest_pair(random: &mut Random, image: &mut [u8]) {
    let place = PAIRS + 4 * random.below(8);
    image[place..place + 4].copy_from_slice(&LOWEST);
}

/// Puts faults into one entry or several.
fn faults(random: &mut Random, image: &mut [u8], count: usize) {
    let blocks = block_count(image);
    for _ in 0..count {
        let fault = FAULTS[random.below(FAULTS.len())];
        let k = [0, blocks - 1, random.below(blocks)][random.below(3)];
        let place = fault.place(random, image, k);
        image[place] ^= change(random);
    }
}

/// Changes a part of an entry, its body's first byte sometimes with it.
fn entry(random: &mut Random, image: &mut [u8]) {
    let k = random.below(block_count(image));
    let place = HEAD + ENTRY * k;
    let offset = long(image, place) as usize;
    match random.below(4) {
        0 => image[offset] ^= 1 << random.below(8),
        1 => {
            let header = random.bits() as u8;
            (image[offset], image[place + 9]) = (header, header);
        }
        2 => image[place + 8 + random.below(2)] ^= 1 << random.below(8),
        _ => image[place + 10 + random.below(4)] = random.bits() as u8,
    }
}
