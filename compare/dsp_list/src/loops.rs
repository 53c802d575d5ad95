//! Files with loops, of the fixed list.

use crate::case::Case;
use crate::file::File;
use crate::made::{any_file, clip_file};
use crate::writer::Writer;
use clip_list::Loop;
use oracle::random::Random;

/// Two frames.
const TOTAL: u32 = 28;

/// Every loop of two frames, every address near them, and loops of shorter last frames.
pub fn loops(random: &mut Random) -> Vec<Case> {
    let mut cases = vec![every_loop(random)];
    cases.extend([28, 20, 15].map(|total| addresses(random, total)));
    cases.push(far_addresses(random));
    cases.push(header_bytes(random));
    cases
}

/// Every loop, with a history that playing does not leave, in and out at either block size.
fn every_loop(random: &mut Random) -> Case {
    let mut file = clip_file(random, TOTAL as usize);
    let mut case = Writer::new(&file.bytes());
    for start in 0..TOTAL {
        let history = [random.sample(), random.sample()];
        for end in start + 1..=TOTAL {
            file.put_loop(Some(Loop { start, end }), history);
            case.source(&file.bytes()).in_and_out([8, 16][(end % 2) as usize]);
        }
    }
    case.finish()
}

/// Puts two addresses, and the header byte of the frame that the first falls into where there is one.
fn put_addresses(file: &mut File, start: u32, last: u32) {
    (file.header.flag, file.header.start, file.header.last) = (1, start, last);
    let header = file.bodies.get(8 * (start as usize / 16)).copied().unwrap_or(0);
    file.header.looped.predictor_and_scale = header.into();
}

/// Each address up to a frame behind the last sample's, as the start and as the last: those of headers, behind the clip and in the wrong order too.
fn addresses(random: &mut Random, total: usize) -> Case {
    let mut file = any_file(random, total);
    file.header.looped.last_samples = [random.sample(), random.sample()];
    let end = file.header.nibbles;
    let mut case = Writer::new(&file.bytes());
    let mut pairs: Vec<_> = (0..end + 18).map(|address| (address, end - 1)).collect();
    pairs.extend((0..end + 18).map(|address| (2, address)));
    pairs.extend((0..end + 2).map(|address| (address, address)));
    pairs.extend((1..end + 2).map(|address| (address, address - 1)));
    for (start, last) in pairs {
        put_addresses(&mut file, start, last);
        case.source(&file.bytes()).import_all(8, 0, false);
    }
    case.finish()
}

/// Addresses far behind the clip, of which some fall on its own when they are cut to fewer bits.
fn far_addresses(random: &mut Random) -> Case {
    let mut file = any_file(random, TOTAL as usize);
    let mut case = Writer::new(&file.bytes());
    for far in [1 << 8, 1 << 16, 1 << 24, 1 << 28, 1 << 31, u32::MAX - 33, u32::MAX - 15] {
        for near in [2, 18, 31] {
            let far = far + near.min(u32::MAX - far);
            for (start, last) in [(far, far), (near, far), (far, near)] {
                put_addresses(&mut file, start, last);
                case.source(&file.bytes()).import_all(8, 0, false);
            }
        }
    }
    case.finish()
}

/// Loops that start in each of three frames, each with the header bytes of all frames and with a high byte.
fn header_bytes(random: &mut Random) -> Case {
    let mut file = any_file(random, 42);
    for (frame, header) in [0x05, 0x85, 0x15].into_iter().enumerate() {
        file.bodies[8 * frame] = header;
    }
    file.header.first.predictor_and_scale = 0x05;
    let mut case = Writer::new(&file.bytes());
    for start in [0, 13, 14, 27, 28, 41] {
        file.put_loop(Some(Loop { start, end: 42 }), [1, -1]);
        for header in [0x05, 0x85, 0x15, 0x0105, 0x8015, 0xff85] {
            file.header.looped.predictor_and_scale = header;
            case.source(&file.bytes()).import_all(16, 0, false);
        }
    }
    case.finish()
}
