//! Playing a part of a clip: from any sample on, into an output of any length.

use crate::clips::{encode, encode_from, noise, tone};
use doilycairn::{Coefficients, History, Image, Part, Refusal, Start};

/// What stands in an output before a call.
const BEFORE: i16 = 0x5a5a;

/// Samples and block sizes of clips for which every part is played.
const SMALL: [(usize, u32); 12] = [
    (1, 8),
    (13, 8),
    (14, 15),
    (15, 8),
    (28, 8),
    (29, 8),
    (41, 16),
    (42, 24),
    (56, 16),
    (71, 40),
    (60, 48),
    (50, 65_536),
];

/// The samples of a whole block.
fn per_block(image: &Image) -> usize {
    image.head().block as usize / 8 * 14
}

/// What a call should say: the blocks are counted one by one, as the document has them.
fn expected(image: &Image, first: usize, room: usize) -> Result<Part, Refusal> {
    let (total, p) = (image.head().total as usize, per_block(image));
    if first >= total {
        return Err(Refusal::NoSuchSample);
    }
    let samples = room.min(total - first);
    let overlaps = |j: &usize| samples > 0 && j * p < first + samples && first < (j + 1) * p;
    let blocks = (0..image.head().blocks as usize).filter(overlaps).count() as u32;
    Ok(Part { samples, blocks })
}

/// Plays a part: it is that of the whole clip, the rest of the output is kept, and the answer is as it should be.
fn plays(image: &Image, whole: &[i16], first: usize, room: usize) {
    let mut out = vec![BEFORE; room];
    let answer = image.play_from(first as u32, &mut out);
    assert_eq!(answer, expected(image, first, room), "{first} {room}");
    let (played, kept) = out.split_at(answer.map_or(0, |part| part.samples));
    assert!(whole.iter().skip(first).take(room).eq(played), "{first} {room}");
    assert!(kept.iter().all(|sample| *sample == BEFORE), "{first} {room}");
}

/// Plays every part of an image, and what is not in it.
fn plays_every_part(image: &Image) {
    let whole = image.play().unwrap();
    assert!(image.samples().unwrap().eq(whole.iter().copied()));
    for first in 0..=whole.len() + 2 {
        for room in 0..=whole.len().saturating_sub(first) + 2 {
            plays(image, &whole, first, room);
        }
    }
}

/// What a call with this room says.
fn said(image: &Image, first: u32, room: usize) -> Result<(usize, u32), u32> {
    let part = image.play_from(first, &mut vec![BEFORE; room]);
    part.map(|part| (part.samples, part.blocks)).map_err(Refusal::number)
}

#[test]
fn the_worked_table() {
    let bytes = encode(&noise(15, 9000, 1), 8);
    let image = Image::open(&bytes).unwrap();
    for (first, room, answer) in [
        (0, 14, Ok((14, 1))),
        (0, 15, Ok((15, 2))),
        (13, 1, Ok((1, 1))),
        (13, 2, Ok((2, 2))),
        (14, 200, Ok((1, 1))),
        (14, 0, Ok((0, 0))),
        (15, 0, Err(19)),
        (15, 9, Err(19)),
        (u32::MAX, 1, Err(19)),
    ] {
        assert_eq!(said(&image, first, room), answer, "{first} {room}");
    }
}

#[test]
fn the_worked_table_of_three_blocks() {
    let bytes = encode(&noise(1000, 9000, 1), 256);
    let image = Image::open(&bytes).unwrap();
    assert_eq!((per_block(&image), image.head().blocks), (448, 3));
    let whole = image.play().unwrap();
    for (first, room, answer) in [
        (400, 200, (200, 2)),
        (447, 1, (1, 1)),
        (448, 448, (448, 1)),
        (447, 450, (450, 3)),
        (999, 5, (1, 1)),
    ] {
        assert_eq!(said(&image, first, room), Ok(answer), "{first} {room}");
        plays(&image, &whole, first as usize, room);
    }
}

/// The worked clip: a ramp of 20 samples, whose played difference is its nibble.
fn ramp() -> Vec<u8> {
    let mut coefficients = Coefficients([0; 16]);
    coefficients.0[0] = 2048;
    let start = Start {
        total: 20,
        rate: 32_000,
        block_size: 8,
        gain: 0,
        coefficients,
        history: History { newest: 1000, older: 990 },
        looped: None,
    };
    let clip: Vec<i16> = (0..20).map(|i| 1000 + 6 * i).collect();
    encode_from(&start, &clip)
}

/// Plays twelve samples of the worked clip from number 5 on.
fn twelve_from_5(bytes: &[u8]) -> [i16; 12] {
    let mut out = [BEFORE; 12];
    let part = Image::open(bytes).unwrap().play_from(5, &mut out);
    assert_eq!(part, Ok(Part { samples: 12, blocks: 2 }));
    out
}

#[test]
fn the_worked_samples() {
    let bytes = ramp();
    assert_eq!(bytes[88..], *b"\0\x06\x66\x66\x66\x66\x66\x66\x07\0\0\0");
    let played = [1030, 1036, 1042, 1048, 1054, 1060, 1066, 1072, 1078, 1078, 1078, 1078];
    assert_eq!(twelve_from_5(&bytes), played);
}

/// Block 1 of the worked clip with a history that block 0 does not leave.
#[test]
fn the_worked_samples_with_another_history_in_an_entry() {
    let mut bytes = ramp();
    assert_eq!(bytes[82..86], [0x04, 0x36, 0x04, 0x30]); // 1078, 1072
    bytes[82..84].copy_from_slice(&500_i16.to_be_bytes());
    let played = [1030, 1036, 1042, 1048, 1054, 1060, 1066, 1072, 1078, 500, 500, 500];
    assert_eq!(twelve_from_5(&bytes), played);
    plays_every_part(&Image::open(&bytes).unwrap());
}

#[test]
fn every_first_sample_and_room() {
    for (total, block_size) in SMALL {
        let bytes = encode(&noise(total, 9000, total as u64), block_size);
        plays_every_part(&Image::open(&bytes).unwrap());
    }
}

/// Images made by hand, whose entries say other histories than the blocks before them leave.
#[test]
fn every_first_sample_and_room_where_histories_do_not_go_on() {
    for (total, block_size) in SMALL {
        let mut bytes = encode(&tone(total), block_size);
        let went_on = Image::open(&bytes).unwrap().play().unwrap();
        let blocks = Image::open(&bytes).unwrap().head().blocks as usize;
        for block in 1..blocks {
            bytes[56 + 16 * block + 10..][..4].copy_from_slice(&[0x20, block as u8, 0xe0, 7]);
        }
        let image = Image::open(&bytes).unwrap();
        assert_eq!(image.play().unwrap() == went_on, blocks == 1);
        plays_every_part(&image);
    }
}

#[test]
fn a_long_clip_at_and_around_the_edges_of_blocks() {
    let clip = noise(300_000, 20_000, 5);
    for block_size in [8, 1000, 65_536] {
        let bytes = encode(&clip, block_size);
        let image = Image::open(&bytes).unwrap();
        let (whole, p) = (image.play().unwrap(), per_block(&image));
        let edges = [0, 1, 2, whole.len() / 2 / p, whole.len() / p].map(|k| k * p);
        let near = |edge: usize| [-15, -1, 0, 1, 14].map(|by| edge.saturating_add_signed(by));
        for first in edges.into_iter().flat_map(near) {
            for room in [0, 1, 2, 200, p - 1, p, p + 1, 2 * p + 3] {
                plays(&image, &whole, first, room);
            }
        }
    }
}

/// A run of `a` samples and one of `b` more, and the two as one run.
fn cut_in_two(image: &Image, first: usize, a: usize, b: usize) {
    let (mut whole, mut parts) = (vec![BEFORE; a + b], vec![BEFORE; a + b]);
    let all = image.play_from(first as u32, &mut whole).unwrap();
    let (left, right) = parts.split_at_mut(a);
    let before = image.play_from(first as u32, left).unwrap();
    let after = image.play_from((first + a) as u32, right).unwrap();
    assert_eq!(whole, parts);
    assert_eq!(all.samples, before.samples + after.samples);
    let is_inside = a > 0 && b > 0 && !(first + a).is_multiple_of(per_block(image));
    assert_eq!(all.blocks, before.blocks + after.blocks - u32::from(is_inside));
}

#[test]
fn a_run_cut_in_two_is_its_parts_in_turn() {
    for (total, block_size) in [(15, 8), (43, 8), (50, 16), (60, 24), (40, 65_536)] {
        let bytes = encode(&noise(total, 9000, 3), block_size);
        let image = Image::open(&bytes).unwrap();
        for (first, cut) in (0..total).flat_map(|first| (first..total).map(move |cut| (first, cut)))
        {
            (0..=total - cut).for_each(|b| cut_in_two(&image, first, cut - first, b));
        }
    }
}

#[test]
fn pieces_in_turn_are_the_clip() {
    let bytes = encode(&tone(3000), 100);
    let image = Image::open(&bytes).unwrap();
    for room in [1, 13, 14, 15, 168, 1000, 2999, 3000, 4000] {
        let mut streamed = vec![];
        while streamed.len() < 3000 {
            let mut out = vec![BEFORE; room];
            let part = image.play_from(streamed.len() as u32, &mut out).unwrap();
            streamed.extend(&out[..part.samples]);
        }
        assert_eq!(Ok(streamed), image.play());
    }
}

#[test]
fn ranges() {
    let bytes = encode(&noise(43, 9000, 4), 16);
    let image = Image::open(&bytes).unwrap();
    let whole = image.play().unwrap();
    let ends: Vec<u32> = (0..50).chain([1000, u32::MAX]).collect();
    for (start, end) in ends.iter().flat_map(|start| ends.iter().map(move |end| (*start, *end))) {
        let length = end.min(43).saturating_sub(start) as usize;
        let samples = whole.get(start as usize..).filter(|rest| !rest.is_empty());
        let part = samples.map(|rest| rest[..length].to_vec()).ok_or(Refusal::NoSuchSample);
        assert_eq!(image.part(start..end), part, "{start} {end}");
    }
}
