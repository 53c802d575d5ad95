//! Images of which a block does not begin with what the block before leaves, of the fixed list.

use crate::case::Case;
use crate::writer::Writer;
use clip_list::Loop;
use image_list::{Clip, ENTRY, HEAD, change, put_any_histories, silence, table, with};
use oracle::random::Random;

/// Gaps at each block, at two, of one bit, and where a block before is altered.
pub fn gaps(random: &mut Random) -> Vec<Case> {
    vec![
        in_silence(),
        at_each_block(random),
        at_two_blocks(random),
        in_bodies(random),
        at_every_block(random),
        of_one_block(random),
    ]
}

/// Where the newest or the older sample of a block's history stands.
fn history(k: usize, older: usize) -> usize {
    HEAD + ENTRY * k + 10 + 2 * older
}

/// A clip of seven frames, in blocks of one and of two.
fn images(random: &mut Random) -> [Vec<u8>; 2] {
    let clip = Clip::new(random, 90, 8);
    let looped = Some(Loop { start: 30, end: 77 });
    let start = clip_list::Start { looped, ..clip.start };
    let clip = Clip { start, ..clip };
    [8, 16].map(|size| clip.image_at(size))
}

/// Silence with one history of one: its last block names itself, and any earlier one too.
fn in_silence() -> Case {
    let image = silence(28 * 4, 16, None);
    let mut case = Writer::new(&image);
    for k in 0..4 {
        for older in [0, 1] {
            case.source(&with(&image, history(k, older) + 1, &[1])).export_all(200, false);
            case.export(0);
        }
    }
    case.finish()
}

/// Each byte of each history altered by a bit and at random.
fn at_each_block(random: &mut Random) -> Case {
    let [image, _] = images(random);
    let mut case = Writer::new(&image);
    let room = case.needed_to_export();
    for k in 0..7 {
        for place in history(k, 0)..history(k, 0) + 4 {
            for bits in [1, change(random)] {
                case.source(&with(&image, place, &[image[place] ^ bits])).export(room);
            }
        }
    }
    case.finish()
}

/// Gaps at two blocks, of which the first is named.
fn at_two_blocks(random: &mut Random) -> Case {
    let [image, _] = images(random);
    let mut case = Writer::new(&image);
    let room = case.needed_to_export();
    for first in 1..7 {
        for second in first + 1..7 {
            let one = with(&image, history(first, 1), &[image[history(first, 1)] ^ 0x10]);
            let both = with(&one, history(second, 0), &[image[history(second, 0)] ^ 0x01]);
            case.source(&both).export(room);
        }
    }
    case.finish()
}

/// A nibble of each block altered, which its last samples may hand on.
fn in_bodies(random: &mut Random) -> Case {
    let [_, image] = images(random);
    let mut case = Writer::new(&image);
    let room = case.needed_to_export();
    let bodies = table(&image);
    for block in (bodies..image.len()).step_by(16) {
        for place in [1, 7, 9, 14, 15].map(|place| block + place) {
            if place < image.len() {
                case.source(&with(&image, place, &[image[place] ^ 0x17])).export(room);
            }
        }
    }
    case.finish()
}

/// Any histories at all blocks, with room and with none.
fn at_every_block(random: &mut Random) -> Case {
    let [mut image, _] = images(random);
    let mut case = Writer::new(&image);
    let room = case.needed_to_export();
    for _ in 0..4 {
        put_any_histories(random, &mut image);
        case.source(&image).export(room).export(0);
    }
    case.finish()
}

/// One block, which has none before it: any history goes out and comes in.
fn of_one_block(random: &mut Random) -> Case {
    let mut image = Clip::new(random, 30, 24).image();
    let mut case = Writer::new(&image);
    for _ in 0..4 {
        put_any_histories(random, &mut image);
        case.source(&image).out_and_in(24);
    }
    case.finish()
}
