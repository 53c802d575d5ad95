//! Random files and images.

use crate::case::{Case, MOST_BYTES};
use crate::damage::{damaged, with_bytes_behind};
use crate::made::{file_of, put_any_bytes};
use crate::writer::Writer;
use clip_list::{random_samples, random_start, with_random_loop};
use image_list::{Clip, ENTRY, HEAD, block_count, change, damaged as damaged_image};
use oracle::random::Random;

/// A file that is imported, exported again and damaged, and an image that is exported, with gaps and damaged too.
pub fn random_files(random: &mut Random) -> Case {
    let samples = random_samples(random);
    let start = random_start(random, &samples);
    let clip = Clip { start: with_random_loop(random, start), samples };
    let mut file = file_of(&clip);
    if random.below(4) == 0 {
        put_any_bytes(random, &mut file);
    }
    let behind = random.below_one(&[1, 1, 40]);
    let bytes = with_bytes_behind(random, &file, behind);
    let mut case = Writer::new(&bytes);
    import(random, &mut case, clip.start.size);
    let other = random_size(random);
    case.in_and_out(clip.start.size).room(other).import_all(other, 0, false);
    for _ in 0..6 {
        let size = [clip.start.size, random_size(random)][random.below(2)];
        case.source(&damaged(random, &bytes));
        import(random, &mut case, size);
    }
    export_images(random, &mut case, &clip);
    case.finish()
}

/// Any block size, some of them refused.
pub fn random_size(random: &mut Random) -> u32 {
    let size = match random.below(16) {
        0 => [0, 7, 65_537, 65_544, u32::MAX as usize][random.below(5)],
        1 => random.below(8),
        2 => 65_536 - random.below(9),
        3 => 8 + random.below(65_529),
        _ => 8 + random.below_one(&[2, 16, 64, 200]),
    };
    size as u32
}

/// A room near the one that is needed.
pub fn random_room(random: &mut Random, needed: usize) -> usize {
    match random.below(8) {
        0 => needed.saturating_sub(1),
        1 => random.below(needed + 1),
        2 => needed + random.below(40),
        _ => needed,
    }
}

/// Imports with some room.
fn import(random: &mut Random, case: &mut Writer, size: u32) {
    if random.below(4) == 0 {
        case.room(size);
    }
    let room = random_room(random, case.needed_to_import(size));
    case.import(size, room.min(MOST_BYTES));
}

/// Exports an image, two with a gap, and two that are damaged.
fn export_images(random: &mut Random, case: &mut Writer, clip: &Clip) {
    let image = clip.image();
    case.source(&image);
    export(random, case);
    for _ in 0..2 {
        case.source(&with_other_history(random, &image));
        export(random, case);
        case.source(&damaged_image(random, &image));
        export(random, case);
    }
}

/// Exports with some room.
fn export(random: &mut Random, case: &mut Writer) {
    let room = random_room(random, case.needed_to_export());
    case.export(room.min(MOST_BYTES));
}

/// The image with the history of one block altered, by a bit or a byte.
pub fn with_other_history(random: &mut Random, image: &[u8]) -> Vec<u8> {
    let mut other = image.to_vec();
    let place = HEAD + ENTRY * random.below(block_count(image)) + 10 + random.below(4);
    other[place] ^= [1 << random.below(8), change(random)][random.below(2)];
    other
}
