//! The reader tests and plays loops: the worked numbers of change 5/13, each byte of the entry, and what a decoder of its own plays.

use clip_list::{Loop, Start, image_of, ramp, random_loop, random_samples, random_start};
use image_list::reader::{Opened, Refused, open};
use image_list::{
    ENTRY, HEAD, LOWEST, PAIRS, block_count, body, loop_frame, loop_place, put_any_bytes,
    put_any_histories, put_ends, same, sounds_same, table,
};
use oracle::random::Random;

/// The image of the ramp with a loop.
fn ramp_image(size: u32, start: u32, end: u32) -> Vec<u8> {
    let (start, samples) = ramp(size, Some(Loop { start, end }));
    image_of(&start, &[&samples])
}

/// The code that refuses an image.
fn code(image: &[u8]) -> u8 {
    open(image).err().map_or(0, |refused| refused.code)
}

/// What playing the loop gives.
fn turns(image: &[u8], times: u32, room: usize) -> Result<Vec<i16>, u8> {
    open(image).and_then(|opened| opened.play_loop(times, room)).map_err(|refused| refused.code)
}

#[test]
fn the_worked_loop() {
    let mut image = ramp_image(8, 5, 17);
    let rest = [1078; 3];
    let once = [&(5..14).map(|i| 1000 + 6 * i).collect::<Vec<_>>()[..], &rest].concat();
    assert_eq!(turns(&image, 1, 12), Ok(once.clone()));
    assert_eq!(turns(&image, 3, 36), Ok([&once[..], &once, &once].concat()));
    assert_eq!([turns(&image, 1, 11), turns(&image, u32::MAX, 1 << 30)], [Err(14), Err(14)]);
    assert_eq!([turns(&image, 0, 0), turns(&image, 0, 9)], [Ok(vec![]), Ok(vec![])]);
    let opened = open(&image).unwrap().looped.unwrap();
    assert_eq!(opened.looped, Loop { start: 5, end: 17 });
    assert_eq!(
        (opened.context.predictor_and_scale, opened.context.last_samples),
        (0, [1024, 1018])
    );
    let history = loop_place(&image) + 10;
    image[history..history + 4].fill(0);
    let silent = [&(1..10).map(|i| 6 * i).collect::<Vec<_>>()[..], &rest].concat();
    assert_eq!(turns(&image, 2, 24), Ok([&silent[..], &silent].concat()));
    image[51] = 0;
    assert_eq!(open(&image).err(), Some(Refused { code: 20, block: 0 }));
    image[50..52].copy_from_slice(&[0, 2]);
    assert_eq!(code(&image), 15);
}

#[test]
fn an_image_without_a_loop_plays_none() {
    let (start, samples) = ramp(8, None);
    let mut image = image_of(&start, &[&samples]);
    assert!(open(&image).unwrap().looped.is_none());
    assert_eq!([turns(&image, 0, 0), turns(&image, u32::MAX, 0)], [Ok(vec![]), Ok(vec![])]);
    image[PAIRS..PAIRS + 4].copy_from_slice(&LOWEST);
    assert_eq!([turns(&image, 0, 0), turns(&image, 1, 9)], [Err(13), Err(13)]);
    image[51] = 1;
    assert_eq!(code(&image), 15);
}

/// An image of three frames in blocks of two, with a loop that starts in the second frame.
fn in_the_middle() -> Vec<u8> {
    let mut random = Random::new(31);
    let samples = random.tone(29);
    let start = random_start(&mut random, &samples);
    let looped = Some(Loop { start: 20, end: 29 });
    image_of(&Start { size: 16, looped, ..start }, &[&samples])
}

#[test]
fn each_byte_of_the_entry() {
    let image = in_the_middle();
    let place = loop_place(&image);
    for at in (place..place + ENTRY).chain([50, 51, loop_frame(&image)]) {
        for change in 1..=255 {
            let mut damaged = image.clone();
            damaged[at] ^= change;
            let right = match at {
                50 => 15,
                51 => {
                    if change == 1 {
                        20
                    } else {
                        15
                    }
                }
                _ if (place + 10..place + 14).contains(&at) => 0,
                _ if at == place + 3 && (14..28).contains(&damaged[at]) => 0,
                _ if at == place + 7 && (21..29).contains(&damaged[at]) => 0,
                _ => 24,
            };
            let right = if at == place + 3 && right == 24 { same_header(&damaged) } else { right };
            assert_eq!(open(&damaged).err(), (right > 0).then(|| Refused::by(right)), "{at}");
        }
    }
}

/// 0 where the start is in the clip and another frame happens to have the same header, else 24.
fn same_header(image: &[u8]) -> u8 {
    let is_of_the_clip = image[loop_place(image) + 3] < 29;
    let is_header = || image[loop_frame(image)] == image[loop_place(image) + 9];
    if is_of_the_clip && is_header() { 0 } else { 24 }
}

#[test]
fn ends_on_both_sides_of_each_limit() {
    let last = u32::MAX;
    for (start, end, right) in [
        (0, 29, 0),
        (28, 29, 0),
        (14, 15, 0),
        (3, 3, 24),
        (4, 3, 24),
        (0, 30, 24),
        (29, 29, 24),
        (29, 30, 24),
        (0, 0, 24),
        (0, last, 24),
        (last, last, 24),
        (last, 0, 24),
    ] {
        let mut image = in_the_middle();
        put_ends(&mut image, start, end);
        assert_eq!(code(&image), right, "{start}, {end}");
    }
}

#[test]
fn refusals_stand_in_their_sequence() {
    let mut image = in_the_middle();
    let place = loop_place(&image);
    let mut seen = vec![turns(&image, 1, 8)];
    image[PAIRS..PAIRS + 4].copy_from_slice(&LOWEST);
    seen.push(turns(&image, 1, 8));
    for place in [place + 15, HEAD + ENTRY + 9, HEAD + 15, HEAD + 3, 55] {
        image[place] ^= 1;
        seen.push(turns(&image, 1, 8));
        let compared = [same(&image, &[]), sounds_same(&image, &[])];
        assert_eq!(compared.map(|answer| answer.unwrap_err().code), [code(&image); 2]);
    }
    assert_eq!(seen, [14, 13, 24, 22, 21, 20, 15].map(Err));
}

/// Plays samples one after the other: a plain decoder, which begins from the loop's context and at each block's first sample from its own.
fn plain(opened: &Opened, image: &[u8]) -> Vec<i16> {
    let entry = opened.looped.unwrap();
    let per_block = opened.block / 8 * 14;
    let mut context = entry.context;
    let mut played = vec![];
    for sample in entry.looped.start..entry.looped.end {
        let [frame, place] = [sample / 14, sample % 14].map(|number| number as usize);
        let frame = &image[table(image) + 8 * frame..];
        if place == 0 && sample > entry.looped.start {
            context.predictor_and_scale = frame[0].into();
        }
        if sample % per_block == 0 && sample > entry.looped.start {
            context = opened.entries[(sample / per_block) as usize].context;
        }
        let nibble = frame[1 + place / 2] >> (4 * (1 - place % 2)) & 15;
        let nibble = if nibble > 7 { i64::from(nibble) - 16 } else { nibble.into() };
        let header = usize::from(context.predictor_and_scale);
        let pair = &opened.coefficients[(header >> 4 & 7) * 2..];
        let [s0, s1] = context.last_samples.map(i64::from);
        let predicted = (i64::from(pair[0]) * s0 + i64::from(pair[1]) * s1 + 1024) >> 11;
        let next = (predicted + (nibble << (header & 15))).clamp(-32_768, 32_767) as i16;
        context.last_samples = [next, context.last_samples[0]];
        played.push(next);
    }
    played
}

/// Random images with loops: of clips, and with any bytes or any histories.
fn images(count: usize) -> impl Iterator<Item = (bool, Vec<u8>)> {
    let mut random = Random::new(32);
    (0..count).map(move |i| {
        let samples = random_samples(&mut random);
        let start = random_start(&mut random, &samples);
        let looped = Some(random_loop(&mut random, start.total, start.block()));
        let mut image = image_of(&Start { looped, ..start }, &[&samples]);
        match i % 3 {
            1 => put_any_bytes(&mut random, &mut image),
            2 => put_any_histories(&mut random, &mut image),
            _ => {}
        }
        (i % 3 == 0, image)
    })
}

#[test]
fn a_turn_is_what_a_plain_decoder_plays() {
    let mut other = 0;
    for (is_clip, image) in images(6000) {
        let opened = open(&image).unwrap();
        let Loop { start, end } = opened.looped.unwrap().looped;
        let once = plain(&opened, &image);
        let twice = [&once[..], &once].concat();
        assert_eq!(opened.play_loop(2, twice.len()), Ok(twice));
        let (whole, _) = opened.play_all(opened.total as usize).unwrap();
        let part = &whole[start as usize..end as usize];
        assert!(!is_clip || once == part);
        other += u32::from(once != part);
    }
    assert!(other > 1000, "{other}");
}

#[test]
fn at_a_blocks_edge_the_context_is_the_blocks() {
    let mut count = 0;
    for (is_clip, image) in images(3000) {
        let opened = open(&image).unwrap();
        let entry = opened.looped.unwrap();
        let per_block = opened.block / 8 * 14;
        if is_clip && entry.looped.start % per_block == 0 {
            let block = &opened.entries[(entry.looped.start / per_block) as usize];
            assert_eq!(entry.context, block.context);
            count += 1;
        }
    }
    assert!(count > 100, "{count}");
}

#[test]
fn bodies_begin_after_the_loops_entry() {
    for (_, image) in images(300) {
        let opened = open(&image).unwrap();
        assert_eq!(table(&image), HEAD + ENTRY * (block_count(&image) + 1));
        for (k, entry) in opened.entries.iter().enumerate() {
            assert_eq!(entry.offset, body(&image, k));
        }
    }
}
