//! Damaged files.

use crate::file::{File, HEADER};
use clip_list::random_loop;
use image_list::LOWEST;
use image_list::reader::long;
use oracle::random::Random;
use oracle::sample_to_address;
use std::ops::Range;

/// The fields of the header.
pub const FIELDS: [Range<usize>; 15] = [
    0..4,
    4..8,
    8..12,
    12..14,
    14..16,
    16..20,
    20..24,
    24..28,
    28..60,
    60..62,
    62..64,
    64..68,
    68..70,
    70..74,
    74..96,
];

/// A file with one damage or several, of which some are none.
pub fn damaged(random: &mut Random, file: &[u8]) -> Vec<u8> {
    let mut damaged = file.to_vec();
    let count = if random.below(4) == 0 { 2 + random.below(2) } else { 1 };
    for _ in 0..count {
        damage(random, &mut damaged);
    }
    match random.below(8) {
        0 => cut(random, &mut damaged),
        1 => any_header(random, &mut damaged),
        _ => {}
    }
    damaged
}

/// Alters something of the file.
fn damage(random: &mut Random, file: &mut [u8]) {
    match random.below(13) {
        0 => file[random.below(HEADER)] = random.bits() as u8,
        1 => file[random.below(HEADER)] ^= 1 << random.below(8),
        2 => number(random, file),
        3 => short_number(random, file),
        4 => any_field(random, file),
        5 => lowest_pair(random, file),
        6..9 => addresses(random, file),
        9 => file[13] ^= 1,
        10 => body(random, file),
        11 => histories(random, file),
        _ => file[FIELDS[2 * random.below(2)].clone()].fill(0),
    }
}

/// Puts a number near the right one, or at a limit, to a field of four bytes.
fn number(random: &mut Random, file: &mut [u8]) {
    let place = [0, 0, 4, 8, 16, 20, 24][random.below(7)];
    let now = long(file, place);
    let near = now.wrapping_add_signed(random.within(16));
    let limits = [0, 1, 2, 14_680_064, 14_680_065, 1 << 31, u32::MAX];
    let value = [near, near, limits[random.below(limits.len())]][random.below(3)];
    file[place..place + 4].copy_from_slice(&value.to_be_bytes());
}

/// Puts a small number to a field of two bytes, or alters its high byte.
fn short_number(random: &mut Random, file: &mut [u8]) {
    let place = [12, 14, 62, 68][random.below(4)];
    match random.below(2) {
        0 => file[place] ^= 1 << random.below(8),
        _ => file[place + 1] = random.below(4) as u8,
    }
}

/// Puts any bytes to a field.
fn any_field(random: &mut Random, file: &mut [u8]) {
    let field = FIELDS[random.below(FIELDS.len())].clone();
    file[field].fill_with(|| random.bits() as u8);
}

/// Makes a pair the lowest.
fn lowest_pair(random: &mut Random, file: &mut [u8]) {
    let place = 28 + 4 * random.below(8);
    file[place..place + 4].copy_from_slice(&LOWEST);
}

/// Puts another loop, mostly with its frame's header byte, or addresses that may be none.
fn addresses(random: &mut Random, file: &mut [u8]) {
    let total = long(file, 0).clamp(1, 1 << 24);
    let looped = random_loop(random, total, 16);
    let mut ends =
        [looped.start, looped.end - 1].map(|sample| sample_to_address(sample as usize) as u32);
    match random.below(8) {
        0 => ends.swap(0, 1),
        1 => ends[random.below(2)] &= !15,
        2 => ends[random.below(2)] ^= 1 << random.below(5),
        3 => ends[random.below(2)] = ends[1].wrapping_add_signed(random.within(3)),
        4 => ends[1] = ends[0],
        _ => {}
    }
    file[12..14].copy_from_slice(&[0, 1]);
    file[16..24].copy_from_slice(&ends.map(u32::to_be_bytes).concat());
    if let Some(header) = file.get(HEADER + 8 * (ends[0] as usize / 16)).copied()
        && random.below(8) > 0
    {
        file[68..70].copy_from_slice(&[0, header]);
    }
}

/// Alters a byte of the bodies, a first one more often.
fn body(random: &mut Random, file: &mut [u8]) {
    if file.len() > HEADER {
        let bodies = file.len() - HEADER;
        let place = [0, random.below(bodies) / 8 * 8, random.below(bodies)][random.below(3)];
        file[HEADER + place] ^= 1 << random.below(8);
    }
}

/// Puts any history to either context.
fn histories(random: &mut Random, file: &mut [u8]) {
    let place = [64, 70][random.below(2)];
    file[place..place + 4].fill_with(|| random.bits() as u8);
}

/// Cuts bytes off, one or some.
fn cut(random: &mut Random, file: &mut Vec<u8>) {
    let less = [1, 2, 1 + random.below(10), random.below(file.len())][random.below(4)];
    file.truncate(file.len().saturating_sub(less));
}

/// Any bytes in the header's fields but for those that are kept: none, some, or most.
fn any_header(random: &mut Random, file: &mut [u8]) {
    if file.len() < HEADER {
        return;
    }
    let one_in = [1, 2, 8, 16][random.below(4)];
    for field in FIELDS {
        if random.below(one_in) == 0 {
            file[field].fill_with(|| random.bits() as u8);
        }
    }
}

/// The file with bytes behind it.
pub fn with_bytes_behind(random: &mut Random, file: &File, count: usize) -> Vec<u8> {
    let mut file = file.bytes();
    file.extend((0..count).map(|_| random.bits() as u8));
    file
}
