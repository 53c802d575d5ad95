//! Fields of a .dsp file that are not as listed: which are refused by 26, and which may be any.

use crate::clips::{Random, encode_from, noise, start_of, with_loop};
use crate::dsp::{exported, imported};
use crate::dsp_reading;
use doilycairn::*;

/// The file of 20 samples of noise, with a loop or without.
pub fn file(looped: Option<(u32, u32)>) -> Vec<u8> {
    let clip = noise(20, 9000, 5);
    let start = start_of(&clip, 8);
    exported(&encode_from(&looped.map_or(start, |looped| with_loop(start, looped)), &clip))
}

/// The file with these bytes in the place of its own.
pub fn with(file: &[u8], place: usize, values: &[u8]) -> Vec<u8> {
    let mut bytes = file.to_vec();
    bytes[place..place + values.len()].copy_from_slice(values);
    bytes
}

/// Why a file is not imported, as its bytes tell, too; else its image is the one that they tell.
pub fn refused(file: &[u8], block_size: u32) -> Option<Refusal> {
    let why = from_dsp(file, block_size).err();
    assert_eq!(why, dsp_reading::refusal(file, block_size));
    assert_eq!(dsp_image_size(file, block_size).err(), why);
    if why.is_none() {
        assert_eq!(imported(file, block_size), dsp_reading::image(file, block_size));
    }
    why
}

const BAD: Option<Refusal> = Some(Refusal::BadField);

/// What altering a byte of the header does, of a clip of 20 samples with a loop from 5 up to 17, or without.
#[test]
fn every_bit_of_the_header() {
    for (whole, is_looped) in [(file(None), false), (file(Some((5, 17))), true)] {
        for (place, bit) in (0..96).flat_map(|place| (0..8).map(move |bit| (place, bit))) {
            let bytes = with(&whole, place, &[whole[place] ^ 1 << bit]);
            let why = refused(&bytes, 8);
            match place {
                0..4 => assert!(why == BAD || why == Some(Refusal::FileTooShort), "{place}"),
                8..12 | 28..62 | 64..68 => assert_eq!(why, None, "{place} {bit}"),
                70..74 if is_looped => assert_eq!(why, None, "{place} {bit}"),
                16..24 if is_looped => assert!(why.is_none() || why == BAD),
                _ => assert_eq!(why, BAD, "{place} {bit}"),
            }
        }
    }
}

#[test]
fn the_nibble_count_is_that_of_the_samples() {
    let whole = file(None);
    for count in (0..60).chain([u32::MAX, 1 << 16]) {
        let bytes = with(&whole, 4, &count.to_be_bytes());
        assert_eq!(refused(&bytes, 8), if count == 24 { None } else { BAD });
    }
}

#[test]
fn the_flag_is_0_or_1() {
    let (plain, looped) = (file(None), file(Some((5, 17))));
    // Without its loop's fields, or with another's, neither is as listed.
    assert_eq!(refused(&with(&plain, 12, &[0, 1]), 8), BAD);
    assert_eq!(refused(&with(&looped, 12, &[0, 0]), 8), BAD);
    for flag in (2..=u16::MAX).step_by(127).chain([2, 3, 255, 256, 257, u16::MAX]) {
        for whole in [&plain, &looped] {
            assert_eq!(refused(&with(whole, 12, &flag.to_be_bytes()), 8), BAD);
        }
    }
}

#[test]
fn zeros_and_the_number_2() {
    for whole in [file(None), file(Some((5, 17)))] {
        for number in (0..300).chain([u32::MAX, 2 << 8, 2 << 24]) {
            let bytes = with(&whole, 24, &number.to_be_bytes());
            assert_eq!(refused(&bytes, 8), if number == 2 { None } else { BAD });
        }
        for place in [14, 15].into_iter().chain(74..96) {
            for value in [1, 2, 0x80, 0xff] {
                assert_eq!(refused(&with(&whole, place, &[value]), 8), BAD);
            }
        }
    }
}

/// Samples 0 to 19 stand at 2 to 15 and at 18 to 23.
#[test]
fn addresses_are_those_of_samples() {
    let is_sample = |address: u32| (2..16).contains(&address) || (18..24).contains(&address);
    let whole = file(Some((5, 17)));
    let places = (0..40).chain([256, 1 << 16, 0x8000_0007, u32::MAX]);
    for (start, last) in places.clone().flat_map(|a| places.clone().map(move |b| (a, b))) {
        let values = [start, last].map(u32::to_be_bytes).concat();
        let bytes = with(&whole, 16, &values);
        // The loop's header is that of the frame that holds its start.
        let frame = if start < 16 { 96 } else { 104 };
        let bytes = with(&bytes, 68, &[0, bytes[frame]]);
        let is_loop = is_sample(start) && is_sample(last) && start <= last;
        assert_eq!(refused(&bytes, 8), if is_loop { None } else { BAD }, "{start} {last}");
        if is_loop {
            let image = imported(&bytes, 8);
            let [start, last] = [start, last].map(|address| address_to_sample(address) as u32);
            let looped = Image::open(&image).unwrap().looped();
            assert_eq!(looped, Some(Loop { start, end: last + 1 }));
        }
    }
}

#[test]
fn headers_are_their_frames() {
    let whole = file(Some((15, 17)));
    assert_eq!((whole[62], whole[63], whole[68], whole[69]), (0, whole[96], 0, whole[104]));
    for (field, frame) in [(62, 96), (68, 104)] {
        for bit in 0..8 {
            let other = whole[frame] ^ 1 << bit;
            assert_eq!(refused(&with(&whole, field, &[1 << bit]), 8), BAD);
            assert_eq!(refused(&with(&whole, field + 1, &[other]), 8), BAD);
            assert_eq!(refused(&with(&whole, frame, &[other]), 8), BAD);
            // Altered alike, it is as listed.
            let bytes = with(&with(&whole, frame, &[other]), field + 1, &[other]);
            assert_eq!(refused(&bytes, 8), None);
        }
    }
}

#[test]
fn without_a_loop_its_fields_are_zeros() {
    let whole = file(None);
    for place in (16..24).chain(68..74) {
        for value in 1..=255 {
            assert_eq!(refused(&with(&whole, place, &[value]), 8), BAD);
        }
    }
}

#[test]
fn damage_in_many_places() {
    let mut random = Random(19);
    let files = [None, Some((5, 17)), Some((0, 20)), Some((19, 20))].map(file);
    let mut seen = [0; 27];
    for turn in 0..20_000 {
        let mut bytes = files[turn % files.len()].clone();
        for _ in 0..1 + random.next() % 3 {
            let place = random.next() as usize % bytes.len();
            bytes[place] = [0, 1, 2, 255, random.next() as u8][random.next() as usize % 5];
        }
        let why = refused(&bytes, [8, 24, 7][random.next() as usize % 3]);
        seen[why.map_or(0, Refusal::number) as usize] += 1;
    }
    assert!([0, 6, 25, 26].iter().all(|code| seen[*code] > 100), "{seen:?}");
}
