//! The fixed list.

use crate::call::Call;
use crate::case::Case;
use crate::contents::contents;
use crate::damage::block_count;
use crate::loops::loops;
use crate::made::{Clip, any_image, clip_image};
use crate::reader::long;
use crate::refusals::refusals;
use crate::refused_pairs::refused_pairs;
use crate::refused_runs::refused_runs;
use crate::runs::runs;
use crate::sameness::sameness;
use crate::strictly::strictly;
use crate::uncounted::uncounted;
use crate::writer::Writer;
use clip_list::{HISTORIES, Start, image_of};
use oracle::pairs::largest_measured;
use oracle::random::Random;

/// All cases, the same each time.
pub fn cases() -> Vec<Case> {
    let mut random = Random::new(1);
    let mut cases = vec![worked()];
    cases.extend(lengths(&mut random));
    cases.extend(longer(&mut random));
    cases.extend(of_measured_size(&mut random));
    cases.extend(any(&mut random));
    cases.extend(rooms(&mut random));
    cases.extend(refusals(&mut random));
    cases.extend(sameness(&mut random));
    cases.extend(contents(&mut random));
    let mut random = Random::new(2);
    cases.extend(runs(&mut random));
    cases.extend(refused_runs(&mut random));
    cases.extend(loops(&mut Random::new(3)));
    let mut random = Random::new(4);
    cases.extend(strictly(&mut random));
    cases.extend(uncounted(&mut random));
    cases.push(refused_pairs(&mut random));
    cases
}

/// Document 01's image.
fn worked() -> Case {
    let start = Start {
        total: 1,
        rate: 32_000,
        size: 15,
        gain: 0,
        coefficients: [0; 16],
        history: [0; 2],
        looped: None,
    };
    let mut case = Writer::new(&image_of(&start, &[&[9]]));
    case.open().block(0, 1).block(1, 1).all(1).both_ways();
    case.finish()
}

/// Opens an image that other bytes may follow, and plays each block and all, with room to spare or a sample short, and numbers behind the last.
fn read(random: &mut Random, image: &[u8]) -> Case {
    let after = (0..random.below_one(&[1, 30])).map(|_| random.bits() as u8);
    let image: Vec<_> = image.iter().copied().chain(after).collect();
    let blocks = block_count(&image) as u32;
    let mut case = Writer::new(&image);
    case.open();
    for k in 0..blocks {
        let room = case.samples(k) + random.below_one(&[1, 1, 5]);
        case.block(k, room);
    }
    let k = random.below(blocks as usize) as u32;
    let room = case.samples(k) - 1;
    case.call(Call::Play { k, room });
    let total = long(&image, 4) as usize;
    case.all(total + random.below_one(&[1, 5]));
    if random.below(4) == 0 {
        case.all(total - 1);
    }
    case.block(blocks, random.below(4));
    let k = [blocks + 1, u32::MAX][random.below(2)];
    case.call([Call::Body { k }, Call::Play { k, room: 1 }][random.below(2)]);
    case.finish()
}

/// Lengths around multiples of 14, block sizes around multiples of 8.
fn lengths(random: &mut Random) -> Vec<Case> {
    let mut cases = vec![];
    for total in [1, 2, 12, 13, 14, 15, 16, 27, 28, 29, 42, 43] {
        for size in [8, 16, 23] {
            let image = clip_image(random, total, size);
            cases.push(read(random, &image));
        }
    }
    cases
}

/// Longer clips, of many blocks and of one.
fn longer(random: &mut Random) -> Vec<Case> {
    let mut cases = vec![];
    for (size, totals) in [
        (8, [57, 99]),
        (24, [100, 168]),
        (40, [140, 141]),
        (64, [150, 225]),
        (80, [280, 281]),
        (104, [182, 300]),
        (200, [351, 400]),
        (65_536, [99, 420]),
    ] {
        for total in totals {
            let image = clip_image(random, total, size);
            cases.push(read(random, &image));
        }
    }
    cases
}

/// The largest measured coefficients with extreme starting histories.
fn of_measured_size(random: &mut Random) -> Vec<Case> {
    let mut cases = vec![];
    for coefficients in largest_measured() {
        for history in HISTORIES {
            let mut clip = Clip::new(random, 30, 16);
            (clip.start.coefficients, clip.start.history) = (coefficients, history);
            cases.push(read(random, &clip.image()));
        }
    }
    cases
}

/// Images of any bytes.
fn any(random: &mut Random) -> Vec<Case> {
    let mut cases = vec![];
    for total in [1, 3, 14, 17, 28, 40, 56, 77] {
        for size in [8, 16, 40] {
            let image = any_image(random, total, size);
            cases.push(read(random, &image));
        }
    }
    cases
}

/// A block, and all of them, played with every room.
fn rooms(random: &mut Random) -> Vec<Case> {
    let mut cases = vec![];
    for (total, size, k) in [(1, 8, 0), (17, 8, 1), (31, 16, 0)] {
        let mut case = Writer::new(&clip_image(random, total, size));
        for room in 0..case.samples(k) + 3 {
            case.call(Call::Play { k, room });
        }
        for room in 0..total + 3 {
            case.all(room);
        }
        cases.push(case.finish());
    }
    cases
}
