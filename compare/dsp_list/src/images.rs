//! Damaged images that are exported, of the fixed list.

use crate::case::Case;
use crate::made::looped_or_not;
use crate::writer::Writer;
use clip_list::Loop;
use image_list::{
    Clip, LOWEST, PAIRS, change, frame_count, loop_place, put_header, table, with, with_header,
};
use oracle::random::Random;

/// Bytes of head and table altered, pairs that are not played, shorter images, and what does not count when images are compared.
pub fn images(random: &mut Random) -> Vec<Case> {
    let clip = Clip::new(random, 43, 16);
    let image = clip.image_with(Some(Loop { start: 20, end: 40 }));
    vec![
        altered_bytes(random, &image),
        lowest_pairs(&image),
        shortened(random),
        kept(random, &image),
        number_of_loops(random),
    ]
}

/// Each byte of head and table altered in turn.
fn altered_bytes(random: &mut Random, image: &[u8]) -> Case {
    let mut case = Writer::new(image);
    let room = case.needed_to_export();
    for place in 0..table(image) {
        case.source(&with(image, place, &[image[place] ^ change(random)])).export(room);
    }
    case.finish()
}

/// Two of -32,768 in each pair, and in one and the next.
fn lowest_pairs(image: &[u8]) -> Case {
    let mut case = Writer::new(image);
    let room = case.needed_to_export();
    for place in (PAIRS..PAIRS + 30).step_by(2) {
        case.source(&with(image, place, &LOWEST)).export(room).export(room - 1);
    }
    case.finish()
}

/// Images with fewer bytes than they say.
fn shortened(random: &mut Random) -> Case {
    let image = looped_or_not(random, 30, 8).image();
    let mut case = Writer::new(&image);
    let room = case.needed_to_export();
    for len in [0, 4, 55, 56, table(&image), image.len() - 16, image.len() - 1] {
        case.source(&image[..len]).export(room);
    }
    case.finish()
}

/// The top bit of each header, the spare nibble and the loop's history, which export keeps.
fn kept(random: &mut Random, image: &[u8]) -> Case {
    let mut case = Writer::new(image);
    let mut others: Vec<_> =
        (0..frame_count(image)).map(|frame| with_header(image, frame, 0x80)).collect();
    others.push(with(image, image.len() - 1, &[image[image.len() - 1] ^ 0x0f]));
    for place in loop_place(image) + 10..loop_place(image) + 14 {
        others.push(with(image, place, &[image[place] ^ change(random)]));
    }
    let mut last = image.to_vec();
    put_header(&mut last, frame_count(image) - 1, 0x7c);
    others.push(last);
    for other in others {
        case.source(&other).out_and_in(16);
    }
    case.finish()
}

/// The numbers 0, 1 and 2 of loops, with bytes behind the image.
fn number_of_loops(random: &mut Random) -> Case {
    let clip = Clip::new(random, 20, 8);
    let image = clip.image_with(Some(Loop { start: 0, end: 20 }));
    let longer = [&image[..], &[0; 40]].concat();
    let mut case = Writer::new(&longer);
    for number in [[0, 0], [0, 1], [0, 2], [1, 0], [1, 1]] {
        case.source(&with(&longer, 50, &number)).export(200);
    }
    case.finish()
}
