//! Files and outputs of other lengths than needed, of the fixed list.

use crate::case::Case;
use crate::file::{File, HEADER, Header};
use crate::made::{any_file, clip_file, looped_or_not};
use crate::writer::Writer;
use oracle::random::Random;

/// Shorter files, counts that need more, rooms, and bytes behind.
pub fn rooms(random: &mut Random) -> Vec<Case> {
    let mut cases = shortened(random);
    cases.push(counts(random));
    cases.extend(import_rooms(random));
    cases.extend(export_rooms(random));
    cases.extend(behind(random));
    cases
}

/// Files with fewer bytes than they need, and with more.
fn shortened(random: &mut Random) -> Vec<Case> {
    let mut cases = vec![];
    for total in [1, 2, 14, 15, 28, 43] {
        let file = clip_file(random, total).bytes();
        let longer = [&file[..], b"DSPC"].concat();
        let mut case = Writer::new(&longer);
        let room = case.needed_to_import(8);
        let some = [0, 1, 4, HEADER - 1, HEADER, HEADER + 1];
        for len in some.into_iter().chain(file.len() - 3..=longer.len()) {
            case.source(&longer[..len]).room(8).import(8, room);
        }
        cases.push(case.finish());
    }
    cases
}

/// Counts of no sample, of too many, and at both sides of what the bodies are enough for, with a header's length, less, and more.
fn counts(random: &mut Random) -> Case {
    let file = clip_file(random, 28);
    let mut case = Writer::new(&file.bytes());
    let limits = [14_680_063, 14_680_064, 14_680_065, 1 << 28, 1 << 31, u32::MAX - 1, u32::MAX];
    for total in [0, 1, 13, 14, 15, 26, 27, 28, 29, 30, 42].into_iter().chain(limits) {
        let header = Header { total, ..file.header };
        let file = File { header, bodies: file.bodies.clone() }.bytes();
        for len in [HEADER - 1, HEADER, HEADER + 1, file.len()] {
            case.source(&file[..len]).room(8).import(7, 0).import(8, 200);
        }
    }
    case.finish()
}

/// Files imported with less room than needed, with as much, and with more.
fn import_rooms(random: &mut Random) -> Vec<Case> {
    let mut cases = vec![];
    for (total, size) in [(1, 8), (28, 8), (29, 16), (60, 65_536)] {
        for file in [clip_file(random, total), any_file(random, total)] {
            let mut case = Writer::new(&file.bytes());
            let needed = case.needed_to_import(size);
            for room in [0, 1, 55, 56, needed - 17, needed - 16, needed - 1, needed, needed + 9] {
                case.import(size, room);
            }
            cases.push(case.finish());
        }
    }
    cases
}

/// The same of images that are exported.
fn export_rooms(random: &mut Random) -> Vec<Case> {
    let mut cases = vec![];
    for (total, size) in [(1, 8), (14, 8), (29, 8), (60, 24), (100, 65_536)] {
        let mut case = Writer::new(&looped_or_not(random, total, size).image());
        let needed = case.needed_to_export();
        for room in [0, 1, HEADER - 1, HEADER, needed - 2, needed - 1, needed, needed + 1, 1024] {
            case.export(room);
        }
        cases.push(case.finish());
    }
    cases
}

/// Bytes behind the file, which are dropped, and behind the image.
fn behind(random: &mut Random) -> Vec<Case> {
    let mut cases = vec![];
    for total in [13, 27, 28, 30] {
        let clip = looped_or_not(random, total, 16);
        let image = clip.image();
        let more: Vec<_> = (0..40).map(|_| random.bits() as u8).collect();
        let mut case = Writer::new(&[&image[..], &more].concat());
        case.export_all(0, false).export_all(40, false).swap();
        let len = case.needed_to_import(16);
        let file = crate::made::file_of(&clip).bytes();
        for behind in [1, 7, 8, 40] {
            case.source(&[&file[..], &more[..behind]].concat()).import(16, len).import(16, len + 5);
        }
        cases.push(case.finish());
    }
    cases
}
