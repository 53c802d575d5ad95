//! Files with altered headers, of the fixed list.

use crate::case::Case;
use crate::file::{File, HEADER, Header};
use crate::made::file_of;
use crate::writer::Writer;
use clip_list::Loop;
use image_list::{Clip, LOWEST, change, with};
use oracle::random::Random;

/// The block size of all of them.
const SIZE: u32 = 16;

/// Each byte altered, each field at its limits, and pairs that are not played.
pub fn fields(random: &mut Random) -> Vec<Case> {
    let looped = file(random, Some(Loop { start: 20, end: 29 }));
    let plain = file(random, None);
    let mut cases: Vec<_> = [&looped, &plain].map(|file| altered_bytes(random, file)).into();
    cases.extend([&looped, &plain].map(at_limits));
    cases.push(lowest_pairs(&plain));
    cases
}

/// A file of two frames and a half.
fn file(random: &mut Random, looped: Option<Loop>) -> File {
    let clip = Clip::new(random, 35, SIZE);
    let start = clip_list::Start { looped, ..clip.start };
    file_of(&Clip { start, ..clip })
}

/// Each byte of the header altered in turn: by a bit at either end, and at random.
fn altered_bytes(random: &mut Random, file: &File) -> Case {
    let file = file.bytes();
    let mut case = Writer::new(&file);
    let room = case.needed_to_import(SIZE);
    for place in 0..HEADER {
        for bits in [1, 0x80, change(random)] {
            case.source(&with(&file, place, &[file[place] ^ bits])).import(SIZE, room);
        }
    }
    case.source(&file).import(SIZE, room);
    case.finish()
}

/// Numbers near one, and limits.
fn values(right: u32) -> Vec<u32> {
    let near = [-14, -1, 1, 14].map(|more| right.wrapping_add_signed(more));
    [&near[..], &[0, 1, 2, 3, 1 << 16, 1 << 24, 1 << 31, u32::MAX]].concat()
}

/// The same of two bytes.
fn short_values(right: u16) -> Vec<u16> {
    [
        &[right ^ 0x80, right ^ 0x100, right.wrapping_add(1)][..],
        &[0, 1, 2, 0x100, 1 << 15, u16::MAX],
    ]
    .concat()
}

/// Each field with numbers near its own and at limits.
fn at_limits(file: &File) -> Case {
    let header = file.header;
    let mut headers = vec![];
    let counts = values(header.total).into_iter().chain([14_680_063, 14_680_064, 14_680_065]);
    headers.extend(counts.map(|total| Header { total, ..header }));
    headers.extend(values(header.nibbles).into_iter().map(|nibbles| Header { nibbles, ..header }));
    headers.extend(values(header.rate).into_iter().map(|rate| Header { rate, ..header }));
    headers.extend(short_values(header.flag).into_iter().map(|flag| Header { flag, ..header }));
    headers.extend(short_values(header.zero).into_iter().map(|zero| Header { zero, ..header }));
    headers.extend(values(header.start).into_iter().map(|start| Header { start, ..header }));
    headers.extend(values(header.last).into_iter().map(|last| Header { last, ..header }));
    headers.extend(values(header.two).into_iter().map(|two| Header { two, ..header }));
    headers.extend(short_values(header.gain).into_iter().map(|gain| Header { gain, ..header }));
    headers.extend(contexts(&header));
    let mut case = Writer::new(&file.bytes());
    for header in headers {
        case.source(&File { header, bodies: file.bodies.clone() }.bytes());
        case.room(SIZE).import_all(SIZE, 0, false);
    }
    case.finish()
}

/// Both contexts with other header bytes and other histories.
fn contexts(header: &Header) -> Vec<Header> {
    let mut headers = vec![];
    for value in short_values(header.first.predictor_and_scale) {
        let mut other = *header;
        other.first.predictor_and_scale = value;
        headers.push(other);
    }
    for value in short_values(header.looped.predictor_and_scale) {
        let mut other = *header;
        other.looped.predictor_and_scale = value;
        headers.push(other);
    }
    for history in [[0, 0], [1, 0], [0, 1], [i16::MIN; 2], [i16::MAX; 2]] {
        for of_loop in [false, true] {
            let mut other = *header;
            let context = if of_loop { &mut other.looped } else { &mut other.first };
            context.last_samples = history;
            headers.push(other);
        }
    }
    headers
}

/// Two of -32,768 in each pair, in one and the next, and only one in a pair.
fn lowest_pairs(file: &File) -> Case {
    let file = file.bytes();
    let mut case = Writer::new(&file);
    let room = case.needed_to_import(SIZE);
    let places = (28..60).step_by(4).chain((30..56).step_by(4)).chain([26, 58]);
    let altered = places.map(|place| with(&file, place, &LOWEST)).chain(
        [[0x80, 0, 0x80, 1], [0x80, 1, 0x80, 0], [0x80, 0, 0, 0], [0, 0, 0x80, 0]]
            .map(|pair| with(&file, 28, &pair)),
    );
    for altered in altered {
        case.source(&altered).room(SIZE).import(SIZE, room).import(SIZE, room - 1);
    }
    case.finish()
}
