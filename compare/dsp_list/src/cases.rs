//! The fixed list.

use crate::case::Case;
use crate::fields::fields;
use crate::gaps::gaps;
use crate::images::images;
use crate::loops::loops;
use crate::made::{any_file, clip_file, looped_or_not};
use crate::reasons::reasons;
use crate::rooms::rooms;
use crate::writer::Writer;
use clip_list::{Loop, Start, ramp};
use image_list::Clip;
use oracle::random::Random;

/// All cases, the same each time.
pub fn cases() -> Vec<Case> {
    let mut random = Random::new(1);
    let mut cases = worked();
    cases.extend(lengths(&mut random));
    cases.extend(longer(&mut random));
    cases.extend(any(&mut random));
    cases.extend(sizes(&mut random));
    cases.extend(fields(&mut random));
    cases.extend(rooms(&mut random));
    cases.extend(loops(&mut random));
    cases.extend(images(&mut random));
    cases.extend(gaps(&mut random));
    cases.extend(reasons(&mut random));
    cases
}

/// One sample.
fn one_sample(looped: Option<Loop>) -> Clip {
    let start = Start {
        total: 1,
        rate: 32_000,
        size: 15,
        gain: 0,
        coefficients: [0; 16],
        history: [0; 2],
        looped,
    };
    Clip { start, samples: vec![9] }
}

/// A ramp and one sample, without a loop and with one; the bytes are written.
fn worked() -> Vec<Case> {
    let ramps = [None, Some(Loop { start: 5, end: 17 })].map(|looped| {
        let (start, samples) = ramp(8, looped);
        Clip { start, samples }
    });
    let samples = [None, Some(Loop { start: 0, end: 1 })].map(one_sample);
    let clips = ramps.into_iter().chain(samples);
    clips.map(|clip| whole(&clip, true).finish()).collect()
}

/// A clip's image exported, its file imported at the image's block size and at another, and that image exported.
fn whole(clip: &Clip, shown: bool) -> Writer {
    let mut case = Writer::new(&clip.image());
    let size = clip.start.size;
    case.export_all(0, shown).swap().room(size);
    case.import_all(size, 0, shown);
    case.import_all(size % 64 + 8, 0, false).swap().export_all(0, false);
    case
}

/// Lengths around multiples of 14, block sizes around multiples of 8.
fn lengths(random: &mut Random) -> Vec<Case> {
    let mut cases = vec![];
    for total in [1, 2, 13, 14, 15, 16, 27, 28, 29, 42, 43] {
        for size in [8, 16, 39] {
            let clip = looped_or_not(random, total, size);
            cases.push(whole(&clip, total % 14 == 1).finish());
        }
    }
    cases
}

/// Longer clips, of many blocks and of one.
fn longer(random: &mut Random) -> Vec<Case> {
    let mut cases = vec![];
    for (total, size) in
        [(99, 8), (300, 8), (281, 80), (182, 104), (351, 200), (420, 39), (420, 65_536)]
    {
        let clip = looped_or_not(random, total, size);
        cases.push(whole(&clip, false).finish());
    }
    cases
}

/// Files of any bytes.
fn any(random: &mut Random) -> Vec<Case> {
    let mut cases = vec![];
    for total in [1, 3, 14, 17, 28, 40, 56, 77, 150] {
        let mut case = Writer::new(&any_file(random, total).bytes());
        for size in [8, 16, 40] {
            case.import_all(size, 0, size == 8 && total < 50).swap().export_all(0, false).swap();
        }
        cases.push(case.finish());
    }
    cases
}

/// Every kind of block size; those that are refused also with no room.
fn sizes(random: &mut Random) -> Vec<Case> {
    let mut cases = vec![];
    for total in [1, 30, 100] {
        let mut case = Writer::new(&clip_file(random, total).bytes());
        for size in [0, 1, 7, 65_537, 65_544, 131_072, 1 << 31, u32::MAX] {
            case.room(size).import(size, 0).import(size, 1000);
        }
        for size in [8, 9, 15, 16, 17, 65_535, 65_536] {
            case.room(size).in_and_out(size);
        }
        cases.push(case.finish());
    }
    cases
}
