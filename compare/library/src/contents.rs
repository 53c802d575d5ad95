//! Damaged contents, through C: each byte of head and table, all pairs of them, and two refused images in every order.

use crate::damaging::Damaging;
use crate::tally::Tally;
use clip_list::Loop;
use image_list::{
    Fault, HEAD, LOWEST, PAIRS, clip_image, loop_frame, loop_place, looped_or_not, put_any_bytes,
};
use oracle::random::Random;

/// Eight damages of a small image, bad entries behind the first 65,536 and at the end of the longest table, and bad bytes of its loop.
pub fn fixed(tally: &mut Tally) {
    let mut random = Random::new(1);
    let image = clip_image(&mut random, 15, 8);
    let mut damaging = Damaging::new(&mut random, tally, &image);
    for places in [&[59][..], &[79], &[87], &[64], &[96], &[65, 75], &[71, 65], &[55, 59]] {
        let changes: Vec<_> = places.iter().map(|place| (*place, 1)).collect();
        damaging.compare_with(&changes);
    }
    let longest_table = longest(None);
    let mut damaging = Damaging::new(&mut random, tally, &longest_table);
    for (fault, k) in
        [(Fault::Offset, 65_536), (Fault::Length, 1_048_575), (Fault::Body, 1_048_575)]
    {
        damaging.compare_with(&[(fault.places(&longest_table, k).start, 1)]);
    }
    let with_loop = longest(Some(Loop { start: 14_680_000, end: 14_680_064 }));
    let mut damaging = Damaging::new(&mut random, tally, &with_loop);
    let entry = loop_place(&with_loop);
    for place in [50, 51, 56, entry + 3, entry + 7, entry + 9, entry + 15, loop_frame(&with_loop)] {
        damaging.compare_with(&[(place, 1)]);
    }
}

/// Silence of 14,680,064 samples in blocks of one frame.
pub fn longest(looped: Option<Loop>) -> Vec<u8> {
    let blocks = 1_048_576;
    let mut image = [&b"DSPC"[..], &[0, 0xe0, 0, 0, 0, 0, 0, 1, 0, 0, 0, 8]].concat();
    image.resize(HEAD - 5, 0);
    image.push(looped.is_some().into());
    image.extend(u32::to_be_bytes(blocks));
    let entries = blocks + u32::from(looped.is_some());
    for k in 0..blocks {
        image.extend((56 + 16 * entries + 8 * k).to_be_bytes());
        image.extend([0, 0, 0, 16, 0, 0, 0, 0, 0, 0, 0, 0]);
    }
    if let Some(Loop { start, end }) = looped {
        image.extend([start.to_be_bytes(), end.to_be_bytes(), [0; 4], [0; 4]].concat());
    }
    image.resize(image.len() + 8 * blocks as usize, 0);
    image
}

/// An image of 2 to 12 blocks, damaged in all ways.
pub fn random(random: &mut Random, tally: &mut Tally) {
    let image = image(random);
    let mut damaging = Damaging::new(random, tally, &image);
    damaging.bytes();
    damaging.pairs();
    damaging.lengths();
    damaging.orders();
}

/// A small image, of a clip or of any bytes, half of the time with a loop, with bytes after it sometimes, and sometimes with a pair that is
/// not played.
fn image(random: &mut Random) -> Vec<u8> {
    let per_block = 1 + random.below(3);
    let blocks = 2 + random.below(11);
    let frames = per_block * blocks - random.below(per_block);
    let total = 14 * frames - random.below(14);
    let size = (8 * per_block + random.below(8)) as u32;
    let mut image = looped_or_not(random, total, size);
    if random.below(2) == 0 {
        put_any_bytes(random, &mut image);
    }
    if random.below(8) == 0 {
        image[PAIRS + 4..PAIRS + 8].copy_from_slice(&LOWEST);
    }
    image.resize(image.len() + random.below_one(&[1, 20]), 0x5a);
    image
}
