//! Runs that are refused, of the fixed list.

use crate::case::Case;
use crate::damage::{ENTRY, HEAD, LOWEST, MARK_END, PAIRS, table};
use crate::fault::{FAULTS, Fault};
use crate::made::{clip_image, with, with_others};
use crate::writer::Writer;
use oracle::random::Random;

/// The samples of an image of three blocks.
const TOTAL: usize = 29;

/// Runs of images that are refused for one reason and for several.
pub fn refused_runs(random: &mut Random) -> Vec<Case> {
    let image = clip_image(random, TOTAL, 8);
    vec![
        for_many_reasons(random, &image),
        in_every_order(random, &image),
        single_faults(random, &image),
        lowest_pairs(random, &image),
        shortened(random, &image),
    ]
}

/// A first sample and a room, of a clip that may have that sample.
fn any_run(random: &mut Random, case: &mut Writer) {
    case.from(random.below(TOTAL + 2) as u32, random.below(4));
}

/// Every choice of the six reasons: 15; 20, 21 and 22 of the middle entry; 13; 19.
fn for_many_reasons(random: &mut Random, whole: &[u8]) -> Case {
    let entry = HEAD + ENTRY;
    let mut case = Writer::new(whole);
    for bad in 0..64 {
        let is_bad = |place: usize| bad >> place & 1 == 1;
        let mut image = whole.to_vec();
        for (i, place) in [MARK_END, entry + 3, entry + 15, entry + 9].into_iter().enumerate() {
            image[place] ^= u8::from(is_bad(i));
        }
        if is_bad(4) {
            image[PAIRS..PAIRS + 4].copy_from_slice(&LOWEST);
        }
        let first = if is_bad(5) { TOTAL } else { random.below(TOTAL) };
        case.first(&image).from(first as u32, random.below(4));
    }
    case.finish()
}

/// 20, 21 and 22 of one entry each, in every order.
fn in_every_order(random: &mut Random, whole: &[u8]) -> Case {
    let faults = [Fault::Offset, Fault::Length, Fault::LowerHeader];
    let mut case = Writer::new(whole);
    for blocks in [[0, 1, 2], [0, 2, 1], [1, 0, 2], [1, 2, 0], [2, 0, 1], [2, 1, 0]] {
        let places = [0, 1, 2].map(|i| faults[i].place(random, whole, blocks[i]));
        case.first(&with_others(random, whole, &places));
        any_run(random, &mut case);
    }
    case.finish()
}

/// Each fault in each entry.
fn single_faults(random: &mut Random, whole: &[u8]) -> Case {
    let mut case = Writer::new(whole);
    for k in 0..3 {
        for fault in FAULTS {
            let place = fault.place(random, whole, k);
            case.first(&with_others(random, whole, &[place]));
            any_run(random, &mut case);
        }
    }
    case.finish()
}

/// Two of -32,768 in each pair, and in one and the next.
fn lowest_pairs(random: &mut Random, whole: &[u8]) -> Case {
    let mut case = Writer::new(whole);
    for place in (PAIRS..PAIRS + 32).step_by(4).chain([PAIRS + 2]) {
        case.first(&with(whole, place, &LOWEST));
        any_run(random, &mut case);
    }
    case.finish()
}

/// Fewer bytes than S, as many, and more.
fn shortened(random: &mut Random, whole: &[u8]) -> Case {
    let longer = [whole, &[0x44, 0x53, 0x50]].concat();
    let mut case = Writer::new(whole);
    let some = [0, 55, HEAD, table(whole) - 1, table(whole)];
    for len in some.into_iter().chain(whole.len() - 2..=longer.len()) {
        case.first(&longer[..len]).from(random.below(TOTAL) as u32, 3);
    }
    case.finish()
}
