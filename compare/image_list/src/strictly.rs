//! Images that are compared by all that counts, of the fixed list.

use crate::case::Case;
use crate::damage::{ENTRY, HEAD, loop_place};
use crate::headers::with_header;
use crate::loop_damage::put_ends;
use crate::made::{Clip, with};
use crate::writer::Writer;
use clip_list::{Loop, Start, image_of};
use oracle::random::Random;

/// Pairs of images that open, of which one differs from the other in one field and what must be altered with it.
pub fn strictly(random: &mut Random) -> Vec<Case> {
    let mut cases = worked();
    cases.extend([fields(), block_size_alone(), fields_of_a_clip(random)]);
    cases
}

/// Silence with coefficients and history of zero: its bodies are zeros, and no field but N is heard.
pub fn silence(total: u32, size: u32, looped: Option<(u32, u32)>) -> Vec<u8> {
    let start = Start {
        total,
        rate: 8000,
        size,
        gain: 0,
        coefficients: [0; 16],
        history: [0; 2],
        looped: looped.map(|(start, end)| Loop { start, end }),
    };
    image_of(&start, &[&vec![0; total as usize]])
}

/// An image compared with others.
fn compared(image: &[u8], others: &[Vec<u8>]) -> Case {
    let mut case = Writer::new(image);
    for other in others {
        case.second(other).all_ways();
    }
    case.finish()
}

/// The image with one byte altered.
fn with_bit(image: &[u8], place: usize) -> Vec<u8> {
    with(image, place, &[image[place] ^ 1])
}

/// Silence of two frames or less, with one row of others for each image.
fn worked() -> Vec<Case> {
    let [image, one_block, odd] = [(28, 8), (28, 16), (15, 8)].map(|(n, b)| silence(n, b, None));
    let others = [
        image.clone(),
        with(&image, 8, &8001_u32.to_be_bytes()),
        with(&image, 49, &[1]),
        with(&image, 47, &[1]),
        one_block.clone(),
        with_header(&image, 1, 0x80),
        with_header(&image, 1, 0x03),
        with(&image, HEAD + ENTRY + 11, &[5]),
    ];
    let looped = silence(28, 8, Some((3, 20)));
    let other_loops = [
        image.clone(),
        silence(28, 8, Some((3, 21))),
        with(&looped, loop_place(&looped) + 13, &[1]),
        with_header(&looped, 0, 0x80),
    ];
    vec![
        compared(&image, &others),
        compared(&one_block, &[with_header(&one_block, 1, 0x03)]),
        compared(&odd, &[with(&odd, odd.len() - 1, &[0x0f])]),
        compared(&looped, &other_loops),
    ]
}

/// Each field of head, entries and loop entry of a silence altered in turn, each bit of each header, and N, B and the loop.
fn fields() -> Case {
    let image = silence(35, 16, Some((20, 33)));
    let coefficients = (0..16).map(|i| 16 + 2 * i + i % 2);
    let histories = (0..3).flat_map(|k| HEAD + ENTRY * k + 10..HEAD + ENTRY * k + 14);
    let places = (8..12).chain(coefficients).chain([48, 49]).chain(histories);
    let mut others: Vec<_> = places.map(|place| with_bit(&image, place)).collect();
    for frame in 0..3 {
        others.extend((0..8).map(|bit| with_header(&image, frame, 1 << bit)));
    }
    for (start, end) in [(19, 33), (21, 33), (20, 32), (20, 34), (0, 33), (28, 33)] {
        let mut other = image.clone();
        put_ends(&mut other, start, end);
        others.push(other);
    }
    others.extend([34, 36].map(|total| silence(total, 16, Some((20, 33)))));
    others.extend([8, 24].map(|size| silence(35, size, Some((20, 33)))));
    others.push(silence(35, 16, None));
    compared(&image, &others)
}

/// One block, with other B that have no other bytes altered with them.
fn block_size_alone() -> Case {
    let image = silence(35, 24, None);
    let others = [32_u32, 65_536].map(|block| with(&image, 12, &block.to_be_bytes()));
    compared(&image, &others)
}

/// Fields of a clip of which some are heard.
fn fields_of_a_clip(random: &mut Random) -> Case {
    let clip = Clip::new(random, 43, 16);
    let image = clip.image_with(Some(Loop { start: 17, end: 40 }));
    let entry = |k: usize| HEAD + ENTRY * k;
    let places = [11, 49, 17, 23, 35, entry(0) + 11, entry(0) + 13, entry(1) + 11, entry(1) + 13];
    let places = places.into_iter().chain([entry(2) + 11, entry(2) + 13]);
    let mut others: Vec<_> = places.map(|place| with_bit(&image, place)).collect();
    others.extend((0..4).map(|frame| with_header(&image, frame, 1)));
    others.extend([None, Some(Loop { start: 17, end: 39 })].map(|other| clip.image_with(other)));
    compared(&image, &others)
}
