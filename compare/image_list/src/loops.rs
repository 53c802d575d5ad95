//! Images with loops, of the fixed list.

use crate::case::Case;
use crate::damage::{ENTRY, HEAD, LOWEST, MARK_END, PAIRS, loop_place};
use crate::loop_damage::{loop_frame, put_ends};
use crate::made::{Clip, put_any_bytes, with, with_others};
use crate::writer::Writer;
use clip_list::{Loop, image_of, ramp};
use oracle::random::Random;

/// Images that open and whose loops are played, and others.
pub fn loops(random: &mut Random) -> Vec<Case> {
    vec![
        worked(),
        every_start(random),
        every_start_of_any_bytes(random),
        rooms(random),
        altered_bytes(random),
        ends(random),
        for_many_reasons(random),
        compared(random),
    ]
}

/// The image of the ramp with a loop.
fn ramp_image(size: u32, start: u32, end: u32) -> Vec<u8> {
    let (start, samples) = ramp(size, Some(Loop { start, end }));
    image_of(&start, &[&samples])
}

/// The ramp with no loop, also with a pair that is not played, and with five; one of these with its stored history zero, and without its mark
/// of a loop.
fn worked() -> Case {
    let (start, samples) = ramp(8, None);
    let image = image_of(&start, &[&samples]);
    let mut case = Writer::new(&image);
    case.open().turns(0, 0).turns(3, 1).turns(u32::MAX, 0);
    case.first(&with(&image, PAIRS, &LOWEST)).turns(0, 0).turns(1, 1);
    let image = ramp_image(8, 5, 17);
    case.first(&image).open().turns(0, 1).turns(1, 12).turns(2, 26).turns(3, 35).from(5, 12);
    let silent = with(&image, loop_place(&image) + 10, &[0; 4]);
    case.first(&silent).open().turns(1, 12).turns(2, 24).all(20);
    case.first(&with(&image, 51, &[0])).open().turns(1, 12);
    for (size, start, end, times) in [(8, 0, 20, 1), (8, 1, 3, 3), (8, 14, 20, 2), (16, 19, 20, 4)]
    {
        let room = times as usize * (end - start) as usize;
        case.first(&ramp_image(size, start, end)).open().turns(times, room + 1);
    }
    case.finish()
}

/// A clip of two frames and a half in blocks of 8 bytes, with a loop at every start.
fn every_start(random: &mut Random) -> Case {
    let clip = Clip::new(random, 35, 8);
    let mut case = Writer::new(&clip.image_with(Some(Loop { start: 0, end: 35 })));
    for start in 0..35 {
        let end = any_end(random, start);
        case.first(&clip.image_with(Some(Loop { start, end }))).turns(1, (end - start) as usize);
    }
    case.finish()
}

/// An end of a loop of 35 samples, at the next sample, a frame's edge or the clip's end more often.
fn any_end(random: &mut Random, start: u32) -> u32 {
    let edge = 14 * (start / 14 + 1) + random.below(2) as u32;
    let any = start + 1 + random.below(35 - start as usize) as u32;
    [start + 1, edge, 35, any][random.below(4)].min(35)
}

/// The same in blocks of 16 bytes with any bytes and any histories, each block's own and the loop's.
fn every_start_of_any_bytes(random: &mut Random) -> Case {
    let clip = Clip::new(random, 35, 16);
    let mut image = clip.image_with(Some(Loop { start: 0, end: 35 }));
    put_any_bytes(random, &mut image);
    let mut case = Writer::new(&image);
    for start in 0..35 {
        let end = any_end(random, start);
        put_ends(&mut image, start, end);
        let history = loop_place(&image) + 10;
        image[history..history + 4].fill_with(|| random.bits() as u8);
        case.first(&image).turns(2, 2 * (end - start) as usize);
    }
    case.finish()
}

/// A loop across the edge of two blocks, played with every room, and many times over; and with a pair that is not played.
fn rooms(random: &mut Random) -> Case {
    let clip = Clip::new(random, 29, 16);
    let image = clip.image_with(Some(Loop { start: 27, end: 29 }));
    let mut case = Writer::new(&image);
    for (times, most) in [(0, 1), (1, 3), (2, 5)] {
        for room in 0..=most {
            case.turns(times, room);
        }
    }
    case.turns(1 << 31, 0).turns(u32::MAX, 512);
    case.first(&with(&image, PAIRS, &LOWEST)).turns(0, 0).turns(1, 0);
    case.finish()
}

/// A clip of three frames in blocks of two, with a loop that starts in the second frame.
fn in_the_middle(random: &mut Random) -> Vec<u8> {
    Clip::new(random, 29, 16).image_with(Some(Loop { start: 20, end: 29 }))
}

/// Each byte of the loop's entry, both of its mark, and the header of its frame altered in turn; of one byte of each field in every call; and
/// the numbers 0, 1 and 2 of loops with bytes after the image.
fn altered_bytes(random: &mut Random) -> Case {
    let image = in_the_middle(random);
    let mut case = Writer::new(&image);
    let entry = loop_place(&image);
    let mark = HEAD - 6;
    for place in (entry..entry + ENTRY).chain([mark, mark + 1, loop_frame(&image)]) {
        case.first(&with_others(random, &image, &[place])).open().turns(1, 9);
        if [2, 5, 8, 9, 15].map(|part| entry + part).contains(&place) {
            let k = random.below(3) as u32;
            case.block(k, 1).all(29).from(20, 9).both_ways();
        }
    }
    let longer = [&image[..], &[0; 40]].concat();
    for number in [[0, 0], [0, 1], [0, 2]] {
        case.first(&with(&longer, mark, &number)).open().turns(0, 0);
    }
    case.finish()
}

/// Ends on both sides of each limit, with their frame's header where there is that frame.
fn ends(random: &mut Random) -> Case {
    let image = in_the_middle(random);
    let mut case = Writer::new(&image);
    let last = u32::MAX;
    let limits = [(3, 3), (4, 3), (0, 30), (0, 29), (28, 29), (29, 29), (29, 30), (0, 0), (14, 15)];
    for (start, end) in limits.into_iter().chain([(0, last), (last, last), (last, 0)]) {
        let mut altered = image.clone();
        put_ends(&mut altered, start, end);
        case.first(&altered).open().turns(1, random.below(40));
    }
    case.finish()
}

/// Every choice of the reasons 15, 22, 24 and 13, each next to one that differs in one of them, with too little room; then with
/// enough, and with a fault of the second entry.
fn for_many_reasons(random: &mut Random) -> Case {
    let whole = in_the_middle(random);
    let mut case = Writer::new(&whole);
    for i in 0..16_usize {
        let is_bad = |place: usize| (i ^ i >> 1) >> place & 1 == 1;
        let mut image = whole.clone();
        for (i, place) in [MARK_END, HEAD + 9, loop_place(&whole) + 15].into_iter().enumerate() {
            image[place] ^= u8::from(is_bad(i));
        }
        if is_bad(3) {
            image[PAIRS..PAIRS + 4].copy_from_slice(&LOWEST);
        }
        case.first(&image).turns(2, 17);
    }
    case.turns(2, 18).first(&whole).turns(2, 18);
    for part in [3, 7, 9] {
        case.first(&with_others(random, &whole, &[HEAD + ENTRY + part])).turns(1, 9);
    }
    case.finish()
}

/// Images with another loop and with none, which sound the same; one that 24 refuses with others that nothing, 15, 20, 22 and 13 refuse; and
/// fewer bytes than S.
fn compared(random: &mut Random) -> Case {
    let clip = Clip::new(random, 29, 16);
    let image = clip.image_with(Some(Loop { start: 3, end: 28 }));
    let mut case = Writer::new(&image);
    for looped in [None, Some(Loop { start: 4, end: 5 })] {
        case.first(&clip.image_with(looped)).both_ways();
    }
    case.first(&with_others(random, &image, &[loop_place(&image) + 9]));
    let lowest = with(&image, PAIRS, &LOWEST);
    let unmarked = with(&image, MARK_END, &[0]);
    let others = [with(&image, 51, &[0]), with(&image, HEAD + 8, &[1])];
    for second in [&image, &unmarked, &others[0], &others[1], &lowest] {
        case.second(second).both_ways();
    }
    for len in [image.len() - 16, image.len() - 1] {
        case.first(&image[..len]).open().turns(1, 25);
    }
    case.finish()
}
