//! The longest files and images, and counts that need more bytes than there are.

use crate::c_files::{compare_export, compare_import, compare_room, compare_size};
use crate::contents::longest;
use crate::files::{compare_accepted, compare_returns};
use crate::tally::Tally;
use clip_list::{Loop, body_size};
use dsp_list::{File, HEADER, Header, put_any_bytes};
use oracle::random::Random;

/// The most samples of a clip.
const MOST: u32 = 14_680_064;

/// Counts at their limits, the longest file and the longest table.
pub fn long_files(tally: &mut Tally) {
    counts(tally);
    longest_file(tally);
    longest_table(tally);
}

/// Counts with as many bytes as they need, one fewer, and a header alone; the bytes of their files.
fn counts(tally: &mut Tally) {
    for total in [0, 1, 13, 14, 15, 28, 29, MOST - 1, MOST, MOST + 1, u32::MAX - 1, u32::MAX] {
        compare_size(total, tally);
        let needed = if total == 0 { 0 } else { body_size(total) as usize };
        let mut file = vec![0; HEADER + needed];
        file[..4].copy_from_slice(&total.to_be_bytes());
        for len in [file.len(), file.len() - 1, HEADER, HEADER - 1] {
            compare_room(&file[..len], 8, tally);
            compare_import(&file[..len], 7, 100, tally);
        }
    }
}

/// A file of as many samples as there can be, of any bytes and with a loop at its end: in and out at the least and the largest block size.
fn longest_file(tally: &mut Tally) {
    let mut random = Random::new(1);
    let bodies = vec![0; body_size(MOST) as usize];
    let nibbles = 16_777_216;
    let header = Header { total: MOST, nibbles, rate: 1, two: 2, ..Header::default() };
    let mut file = File { header, bodies };
    file.put_loop(Some(Loop { start: MOST - 1, end: MOST }), [0; 2]);
    put_any_bytes(&mut random, &mut file);
    let file = file.bytes();
    for size in [8, 65_536] {
        compare_room(&file, size, tally);
        if let Some(image) = compare_import(&file, size, 25_165_896, tally) {
            compare_accepted(&mut random, &file, &image, tally);
        }
    }
    compare_import(&file, 8, 25_165_895, tally);
    compare_room(&file[..file.len() - 1], 8, tally);
}

/// Silence in 1,048,576 blocks with a loop, and with other histories behind the first 65,536 and at the last block.
fn longest_table(tally: &mut Tally) {
    let mut image = longest(Some(Loop { start: 0, end: MOST }));
    compare_returns(&image, 8, tally);
    let room = HEADER + body_size(MOST) as usize;
    for k in [1_048_575, 65_536, 65_535] {
        image[56 + 16 * k + 13] ^= 1;
        compare_export(&image, room, tally);
        compare_export(&image, room - 1, tally);
    }
}
