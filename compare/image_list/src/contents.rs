//! Damaged tables, of the fixed list.

use crate::call::Call;
use crate::case::Case;
use crate::damage::{LOWEST, MARK_END, PAIRS, block_count};
use crate::fault::{FAULTS, Fault};
use crate::made::{clip_image, with, with_others};
use crate::writer::Writer;
use oracle::random::Random;

/// Images with one bad entry, with several, and with a bad head too.
pub fn contents(random: &mut Random) -> Vec<Case> {
    vec![
        worked_table(random),
        single_faults(random),
        two_faults(random),
        two_entries(random),
        with_bad_heads(random),
        in_every_order(random),
    ]
}

/// An image of four blocks.
fn four_blocks(random: &mut Random) -> Vec<u8> {
    let image = clip_image(random, 45, 8);
    assert_eq!(block_count(&image), 4);
    image
}

/// One byte or two altered, of an image with N = 15, B = 8, entries at 56 and 72, bodies at 88 and 96.
fn worked_table(random: &mut Random) -> Case {
    let image = clip_image(random, 15, 8);
    let mut case = Writer::new(&image);
    for places in [&[59][..], &[79], &[87], &[64], &[96], &[65, 75], &[71, 65], &[55, 59]] {
        case.first(&with_others(random, &image, places));
        case.open().block(1, 1).all(15).both_ways();
    }
    case.finish()
}

/// Each fault in the first entry, a middle one and the last.
fn single_faults(random: &mut Random) -> Case {
    let image = four_blocks(random);
    let mut case = Writer::new(&image);
    for k in [0, 1, 3] {
        for fault in FAULTS {
            let place = fault.place(random, &image, k);
            case.first(&with_others(random, &image, &[place]));
            let block = random.below(5) as u32;
            case.open().block(block, random.below(3)).all(random.below(3)).both_ways();
        }
    }
    case.finish()
}

/// Opens the first image, and makes one of the other calls.
fn open_and_another(random: &mut Random, case: &mut Writer) {
    let k = random.below(5) as u32;
    let room = random.below(3);
    let others = [Call::Body { k }, Call::Play { k, room }, Call::PlayAll { room }];
    case.open();
    match random.below(4) {
        3 => case.one_way(random),
        which => case.call(others[which]),
    };
}

/// Every two faults in one entry.
fn two_faults(random: &mut Random) -> Case {
    let image = four_blocks(random);
    let mut case = Writer::new(&image);
    for (i, second) in FAULTS.into_iter().enumerate() {
        for first in &FAULTS[..i] {
            let k = random.below(4);
            let places = [*first, second].map(|fault| fault.place(random, &image, k));
            case.first(&with_others(random, &image, &places));
            open_and_another(random, &mut case);
        }
    }
    case.finish()
}

/// Each fault in an entry and any in a later one.
fn two_entries(random: &mut Random) -> Case {
    let image = four_blocks(random);
    let mut case = Writer::new(&image);
    for blocks in [[0, 1], [0, 3], [1, 2]] {
        for first in FAULTS {
            let second = FAULTS[random.below(FAULTS.len())];
            let places = [(first, blocks[0]), (second, blocks[1])]
                .map(|(fault, k)| fault.place(random, &image, k));
            case.first(&with_others(random, &image, &places));
            open_and_another(random, &mut case);
        }
    }
    case.finish()
}

/// A bad entry in an image with another mark, rate 0, other zero bytes, another K, or without its last byte.
fn with_bad_heads(random: &mut Random) -> Case {
    let image = four_blocks(random);
    let mut case = Writer::new(&image);
    let heads = [(MARK_END, &[0][..]), (8, &[0; 4]), (51, &[1]), (55, &[5])]
        .map(|(place, bytes)| with(&image, place, bytes));
    for bad in heads.iter().map(|head| &head[..]).chain([&image[..image.len() - 1]]) {
        for fault in [Fault::Offset, Fault::Length, Fault::LowerHeader] {
            let k = random.below(4);
            let place = fault.place(random, &image, k);
            case.first(&with_others(random, bad, &[place]));
            open_and_another(random, &mut case);
        }
    }
    case.finish()
}

/// Images that nothing, 15, 20, 21, 22 and 13 refuse, compared in every order; the blocks tell which of the two is named.
fn in_every_order(random: &mut Random) -> Case {
    let image = four_blocks(random);
    let mut case = Writer::new(&image);
    let firsts = one_for_each_reason(random, &image, [0, 1, 2, 3]);
    let seconds = one_for_each_reason(random, &image, [1, 2, 3, 0]);
    for first in &firsts {
        for second in &seconds {
            case.first(first).second(second).both_ways();
        }
    }
    case.finish()
}

/// Images refused by none, 15, 13, 20, 21 for a length and for zero bytes, 22; the last four have their bad entries at these blocks.
fn one_for_each_reason(random: &mut Random, image: &[u8], blocks: [usize; 4]) -> Vec<Vec<u8>> {
    let mut images = vec![image.to_vec(), with(image, MARK_END, &[0]), with(image, PAIRS, &LOWEST)];
    let faults = [Fault::Offset, Fault::Length, Fault::ZeroBytes, Fault::LowerHeader];
    for (fault, k) in faults.into_iter().zip(blocks) {
        let place = fault.place(random, image, k);
        images.push(with_others(random, image, &[place]));
    }
    images
}
