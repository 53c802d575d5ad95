//! Images that differ in what does not count, of the fixed list.

use crate::case::Case;
use crate::damage::{PAIRS, table};
use crate::headers::{header_place, put_header, spare_place, with_header};
use crate::made::{Clip, put_any_bytes, with};
use crate::writer::Writer;
use clip_list::Loop;
use oracle::random::Random;

/// Top bits, spare nibbles, bytes after the image, and headers within a block that play the same.
pub fn uncounted(random: &mut Random) -> Vec<Case> {
    let mut cases: Vec<_> = [20, 28].map(|start| top_bits(random, start)).into();
    cases.extend([spare_nibbles(random), bytes_after(random), within_a_block(random)]);
    cases
}

/// An image of any bytes with a loop.
fn any_bytes(random: &mut Random, total: usize, size: u32, looped: Loop) -> Vec<u8> {
    let mut image = Clip::new(random, total, size).image_with(Some(looped));
    put_any_bytes(random, &mut image);
    image
}

/// The top bit of each header altered, then of all, then of one in either image; a loop starts in the second frame, or where a block begins.
fn top_bits(random: &mut Random, start: u32) -> Case {
    let image = any_bytes(random, 63, 16, Loop { start, end: 60 });
    let mut case = Writer::new(&image);
    let mut all = image.clone();
    for frame in 0..5 {
        case.first(&with_header(&image, frame, 0x80)).all_ways();
        all = with_header(&all, frame, 0x80);
    }
    case.first(&all).all_ways();
    case.second(&with_header(&image, 1, 0x80)).all_ways();
    case.finish()
}

/// The spare nibble of an odd tail altered, and the nibble before it.
fn spare_nibbles(random: &mut Random) -> Case {
    let mut case = None;
    for (total, size) in [(15, 8), (29, 16), (41, 16)] {
        let image = any_bytes(random, total, size, Loop { start: 3, end: 15 });
        let place = spare_place(&image).unwrap();
        let case = case.get_or_insert_with(|| Writer::new(&image)).first(&image);
        for bits in [0x01, 0x0f, 0x10] {
            case.second(&with(&image, place, &[image[place] ^ bits])).all_ways();
        }
    }
    case.unwrap_or_default().finish()
}

/// Bytes after the image, others, and fewer.
fn bytes_after(random: &mut Random) -> Case {
    let image = any_bytes(random, 30, 16, Loop { start: 3, end: 15 });
    let longer = [&image[..], &[0; 20]].concat();
    let mut case = Writer::new(&longer);
    case.first(&image).all_ways();
    case.second(&with(&longer, image.len(), &[0xff; 20])).all_ways();
    case.first(&longer[..image.len() + 1]).all_ways();
    case.finish()
}

/// Two equal pairs: the predictor of a frame within a block may be either, that of a block's first frame counts.
fn within_a_block(random: &mut Random) -> Case {
    let mut image = any_bytes(random, 56, 16, Loop { start: 0, end: 56 });
    let pair: [u8; 4] = image[PAIRS..PAIRS + 4].try_into().unwrap();
    image[PAIRS + 4..PAIRS + 8].copy_from_slice(&pair);
    for frame in 0..4 {
        let header = image[header_place(&image, frame)] & 0x0f;
        put_header(&mut image, frame, header);
    }
    let mut case = Writer::new(&image);
    for frame in 0..4 {
        case.first(&with_header(&image, frame, 0x10)).all_ways();
    }
    let nibble = table(&image) + 9;
    case.first(&with(&image, nibble, &[image[nibble] ^ 0x10])).all_ways();
    case.finish()
}
