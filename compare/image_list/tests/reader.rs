//! The reader opens document 01's image of one sample, refuses what is not as section 2 says by the numbers and blocks of change
//! 4/13, and plays the Rust's blocks.

use clip_list::{Start, image_of, random_samples, random_start};
use image_list::reader::{Refused, open};
use image_list::{ENTRY, FAULTS, HEAD, block_count, body, clip_image, table};
use oracle::random::Random;
use oracle::{Block, decode, encode_blocks};

/// The sample 9 as a clip.
fn image() -> Vec<u8> {
    let mut image = b"DSPC\0\0\0\x01\0\0\x7d\0\0\0\0\x08".to_vec();
    image.extend([0; 36]);
    image.extend(b"\0\0\0\x01\0\0\0\x48\0\0\0\x03\0\x01\0\0\0\0\0\0\x01\x40");
    image
}

/// The image with a byte put.
fn with(place: usize, value: u8) -> Vec<u8> {
    let mut image = image();
    image[place] = value;
    image
}

#[test]
fn the_worked_image() {
    let image = image();
    let opened = open(&image).unwrap();
    assert_eq!((opened.total, opened.rate, opened.block, opened.gain), (1, 32_000, 8, 0));
    assert_eq!(opened.entries.len(), 1);
    assert_eq!(opened.body(&opened.entries[0]), [0x01, 0x40]);
    assert_eq!(opened.play_all(1).map(|(samples, _)| samples), Ok(vec![8]));
    assert_eq!(opened.play_all(0).err(), Some(Refused::by(14)));
    assert_eq!(opened.play(0, 0).err(), Some(Refused::by(14)));
    assert_eq!(opened.play(1, 9).err(), Some(Refused::by(17)));
}

#[test]
fn heads_and_entries_that_are_refused() {
    for (place, value) in [(0, 0), (7, 0), (10, 0), (15, 9), (50, 1), (51, 1), (55, 2)] {
        assert_eq!(open(&with(place, value)).err(), Some(Refused::by(15)), "{place}");
    }
    let entry = [(59, 20), (63, 21), (64, 22), (65, 22), (70, 21), (71, 21), (72, 22)];
    for (place, code) in entry {
        assert_eq!(open(&with(place, 0x77)).err(), Some(Refused { code, block: 0 }), "{place}");
    }
    for (place, value) in [(8, 1), (15, 16), (16, 1), (48, 1), (66, 1), (69, 1), (73, 1)] {
        assert_eq!(open(&with(place, value)).err(), None, "{place}");
    }
    let whole = image();
    for len in 0..whole.len() {
        assert_eq!(open(&whole[..len]).err(), Some(Refused::by(15)));
    }
}

/// An image of several blocks.
fn blocks() -> Vec<u8> {
    clip_image(&mut Random::new(3), 50, 8)
}

/// Each byte of the entries and the first byte of each body, with what refuses an image in which it alone is another.
fn entry_bytes(image: &[u8]) -> Vec<(usize, Option<Refused>)> {
    let mut bytes = vec![];
    for k in 0..block_count(image) {
        let codes = [20, 20, 20, 20, 21, 21, 21, 21, 22, 22, 0, 0, 0, 0, 21, 21, 22];
        let places = (HEAD + ENTRY * k..HEAD + ENTRY * (k + 1)).chain([body(image, k)]);
        let refused = |code| (code > 0).then_some(Refused { code, block: k as u32 });
        bytes.extend(places.zip(codes.map(refused)));
    }
    bytes
}

#[test]
fn each_byte_of_an_entry_is_refused_by_its_number_and_block() {
    let image = blocks();
    for (place, refused) in entry_bytes(&image) {
        for change in 1..=255 {
            let mut damaged = image.clone();
            damaged[place] ^= change;
            assert_eq!(open(&damaged).err(), refused, "{place}");
        }
    }
}

#[test]
fn of_two_bytes_the_earlier_entry_and_then_the_lower_number_counts() {
    let image = blocks();
    let bytes = entry_bytes(&image);
    for (i, (place, refused)) in bytes.iter().enumerate() {
        for (other, other_refused) in &bytes[..i] {
            let mut damaged = image.clone();
            damaged[*place] ^= 1;
            damaged[*other] ^= 2;
            let both = [*refused, *other_refused].into_iter().flatten();
            let least = both.min_by_key(|refused| (refused.block, refused.code));
            assert_eq!(open(&damaged).err(), least, "{place} and {other}");
        }
    }
}

#[test]
fn a_bad_head_is_refused_before_a_bad_entry() {
    let image = blocks();
    for fault in FAULTS {
        let mut damaged = image.clone();
        damaged[fault.places(&image, 0).start] ^= 1;
        assert_eq!(open(&damaged[..image.len() - 1]).err(), Some(Refused::by(15)));
        damaged[55] ^= 1;
        assert_eq!(open(&damaged).err(), Some(Refused::by(15)));
    }
}

#[test]
fn the_worked_table() {
    let image = clip_image(&mut Random::new(4), 15, 8);
    assert_eq!((table(&image), image.len()), (88, 98));
    for (places, code, block) in [
        (&[59][..], 20, 0),
        (&[79], 21, 1),
        (&[87], 21, 1),
        (&[64], 22, 0),
        (&[96], 22, 1),
        (&[65, 75], 22, 0),
        (&[71, 65], 21, 0),
        (&[55, 59], 15, 0),
    ] {
        let mut damaged = image.clone();
        places.iter().for_each(|place| damaged[*place] ^= 1);
        assert_eq!(open(&damaged).err(), Some(Refused { code, block }), "{places:?}");
    }
}

/// Random clips: what they are started with, and their samples.
fn clips() -> impl Iterator<Item = (Start, Vec<i16>)> {
    let mut random = Random::new(5);
    (0..500).map(move |_| {
        let samples = random_samples(&mut random);
        (random_start(&mut random, &samples), samples)
    })
}

#[test]
fn images_play_the_rusts_blocks() {
    for (start, samples) in clips() {
        let Start { rate, size, gain, coefficients, history, .. } = start;
        let encoded = encode_blocks(&[&samples], rate, size as usize, &coefficients, gain, history);
        let play =
            |block: &Block| decode(&block.bytes, block.len, &coefficients, block.context()).0;
        let played: Vec<_> = encoded.unwrap().0.iter().flat_map(play).collect();
        assert_eq!(played.len(), samples.len());
        let image = image_of(&start, &[&samples]);
        let all = open(&image).unwrap().play_all(samples.len());
        assert_eq!(all.map(|(samples, _)| samples), Ok(played));
    }
}
