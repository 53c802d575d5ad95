//! Runs from a sample on, of the fixed list.

use crate::case::Case;
use crate::made::{any_image, clip_image, put_any_histories};
use crate::reader::long;
use crate::writer::Writer;
use clip_list::{Start, image_of};
use oracle::random::Random;

/// Runs that are played, and of samples that there are not.
pub fn runs(random: &mut Random) -> Vec<Case> {
    let mut cases = vec![worked_samples(), worked_counts(random)];
    for image in small(random) {
        cases.push(every_run(&image));
    }
    for (total, size) in [(99, 24), (300, 104), (420, 65_536)] {
        cases.push(at_edges(random, total, size));
    }
    cases.push(in_turn(random));
    cases
}

/// A ramp in two blocks, played from sample 5 on.
fn worked_samples() -> Case {
    let mut coefficients = [0; 16];
    coefficients[0] = 2048;
    let history = [1000, 990];
    let start =
        Start { total: 20, rate: 32_000, size: 8, gain: 0, coefficients, history, looped: None };
    let ramp: Vec<i16> = (0..20).map(|i| 1000 + 6 * i).collect();
    let mut case = Writer::new(&image_of(&start, &[&ramp]));
    case.all(20).from(5, 12).from(0, 20).from(14, 6).from(19, 3);
    case.finish()
}

/// Three blocks of 448 samples at most.
fn worked_counts(random: &mut Random) -> Case {
    let mut case = Writer::new(&clip_image(random, 1000, 256));
    for (first, room) in [(400, 200), (447, 1), (448, 448), (447, 450), (999, 5), (1000, 0)] {
        case.from(first, room);
    }
    case.finish()
}

/// Small images: of one sample, of a clip, of any bytes, and of a clip with any histories in its entries.
fn small(random: &mut Random) -> [Vec<u8>; 4] {
    let [one, clip] = [(1, 8), (15, 8)].map(|(total, size)| clip_image(random, total, size));
    let any = any_image(random, 20, 8);
    let mut other_histories = clip_image(random, 30, 16);
    put_any_histories(random, &mut other_histories);
    [one, clip, any, other_histories]
}

/// Every first sample, up to one past N, and the last number; with every room, up to two more than N.
fn every_run(image: &[u8]) -> Case {
    let total = long(image, 4);
    let mut case = Writer::new(image);
    for first in (0..total + 2).chain([u32::MAX]) {
        for room in 0..total as usize + 3 {
            case.from(first, room);
        }
    }
    case.finish()
}

/// Runs that begin and end at the edges of blocks, one before and one after.
fn at_edges(random: &mut Random, total: usize, size: u32) -> Case {
    let mut case = Writer::new(&clip_image(random, total, size));
    let per_block = size as usize / 8 * 14;
    let edges = (per_block..total).step_by(per_block).chain([total]);
    let near: Vec<_> = edges.flat_map(|edge| [edge - 1, edge, edge + 1]).collect();
    for first in [0, 1].iter().chain(&near).filter(|first| **first < total) {
        for end in near.iter().filter(|end| *end > first) {
            case.from(*first as u32, end - first);
        }
    }
    case.finish()
}

/// Run after run, each from where the one before ended.
fn in_turn(random: &mut Random) -> Case {
    let total = 57;
    let mut case = Writer::new(&any_image(random, total as usize, 8));
    let mut first = 0;
    while first < total {
        let room = random.below(12);
        case.from(first, room);
        first += room as u32;
    }
    case.from(total, 9);
    case.finish()
}
