//! Damaged images: every bit of head and table turned over, every shorter length, and damage in many places.

use crate::clips::{Random, encode, noise, tone};
use crate::reading;
use doilycairn::{Image, Refusal, same, sounds_same};
use std::collections::BTreeSet;

/// What turning over a bit of a byte of head or table does, for an image of several blocks.
#[derive(Debug, PartialEq)]
enum Effect {
    /// A field that may have any value: the image opens, and says something else.
    Other,
    /// A field that has one value.
    Refused(Refusal),
    /// A field that tells the count of blocks, the size and the lengths: by 15 where one of the first two becomes wrong, else so.
    HeadOr(Refusal),
}

/// The effect on an image of so many blocks. Another N gives the last block another length, another B the first.
fn effect(place: usize, blocks: u32) -> Effect {
    match place {
        0..4 | 50..56 => Effect::Refused(Refusal::BadHead),
        4..8 => Effect::HeadOr(Refusal::BadLength { block: blocks - 1 }),
        12..16 => Effect::HeadOr(Refusal::BadLength { block: 0 }),
        8..12 | 16..50 => Effect::Other,
        _ => entry_effect((place - 56) as u32 / 16, (place - 56) % 16),
    }
}

/// The effect of a byte of a block's entry.
fn entry_effect(block: u32, place: usize) -> Effect {
    match place {
        0..4 => Effect::Refused(Refusal::BadOffset { block }),
        4..8 | 14..16 => Effect::Refused(Refusal::BadLength { block }),
        8..10 => Effect::Refused(Refusal::BadHeader { block }),
        _ => Effect::Other,
    }
}

/// Calls on a damaged image answer alike: all are refused as opening is, or none is.
fn refused_alike(bytes: &[u8], whole: &[u8], why: Refusal) {
    for compare in [same, sounds_same] {
        assert_eq!(compare(bytes, whole), Err(why));
        assert_eq!(compare(whole, bytes), Err(why));
    }
}

#[test]
fn every_bit_of_head_and_table() {
    let clip = tone(200);
    let whole = encode(&clip, 40);
    let image = Image::open(&whole).unwrap();
    let blocks: Vec<_> = image.blocks().collect();
    let table = 56 + 16 * blocks.len();
    let mut seen = BTreeSet::new();
    for (place, bit) in (0..table).flat_map(|place| (0..8).map(move |bit| (place, bit))) {
        let mut bytes = whole.clone();
        bytes[place] ^= 1 << bit;
        let opened = Image::open(&bytes);
        assert_eq!(opened.err(), reading::refusal(&bytes));
        match (effect(place, blocks.len() as u32), opened) {
            (Effect::Other, Ok(damaged)) => {
                let is_head_same = damaged.head() == image.head();
                assert!(!is_head_same || !damaged.blocks().eq(blocks.iter().copied()));
                assert_eq!(damaged.play().unwrap().len(), clip.len());
                assert_eq!(same(&bytes, &whole), Ok(false));
                assert_eq!(sounds_same(&bytes, &whole), Ok(damaged.play() == image.play()));
            }
            (Effect::Refused(expected), Err(why)) if why == expected => {
                refused_alike(&bytes, &whole, why)
            }
            (Effect::HeadOr(expected), Err(why)) if [expected, Refusal::BadHead].contains(&why) => {
                refused_alike(&bytes, &whole, why);
                seen.insert((place < 8, why));
            }
            (effect, opened) => panic!("byte {place}, bit {bit}: {effect:?}, {opened:?}"),
        }
    }
    assert_eq!(seen.len(), 4);
}

#[test]
fn the_first_byte_of_a_body_is_in_its_entry() {
    let whole = encode(&noise(200, 9000, 1), 40);
    let offsets: Vec<usize> = {
        let image = Image::open(&whole).unwrap();
        let start = whole.as_ptr() as usize;
        image.blocks().map(|block| block.bytes.as_ptr() as usize - start).collect()
    };
    let table = 56 + 16 * offsets.len();
    for place in table..whole.len() {
        let mut bytes = whole.clone();
        bytes[place] ^= 0x11;
        let opened = Image::open(&bytes).map(|image| image.play().unwrap().len());
        let expected = match offsets.iter().position(|offset| *offset == place) {
            Some(block) => Err(Refusal::BadHeader { block: block as u32 }),
            None => Ok(200),
        };
        assert_eq!(opened, expected);
    }
}

#[test]
fn every_shorter_length() {
    for (count, block_size) in [(1, 8), (14, 8), (15, 8), (200, 40), (200, 65_536)] {
        let whole = encode(&tone(count), block_size);
        for length in 0..whole.len() {
            let opened = Image::open(&whole[..length]).map(|_| ());
            assert_eq!(opened, Err(Refusal::BadHead));
            refused_alike(&whole[..length], &whole, Refusal::BadHead);
        }
    }
}

#[test]
fn limits_of_the_head() {
    let whole = encode(&tone(200), 40);
    let with = |place: usize, value: u32| {
        let mut bytes = whole.clone();
        bytes[place..place + 4].copy_from_slice(&value.to_be_bytes());
        Image::open(&bytes).map(|_| ())
    };
    for (place, value) in [(4, 0), (4, 14_680_065), (4, u32::MAX), (8, 0), (12, 0), (12, 65_544)] {
        assert_eq!(with(place, value), Err(Refusal::BadHead));
    }
    for (place, value) in [(12, 41), (12, u32::MAX), (52, 0), (52, u32::MAX)] {
        assert_eq!(with(place, value), Err(Refusal::BadHead));
    }
    assert_eq!(with(8, u32::MAX), Ok(()));
}

/// Reads all there is to read of bytes that may be an image, and says whether they opened.
fn read_all(bytes: &[u8]) -> bool {
    let opened = Image::open(bytes);
    assert_eq!(opened.err(), reading::refusal(bytes));
    let Ok(image) = opened else { return false };
    let mut out = vec![0; image.head().total as usize];
    let blocks = image.blocks().enumerate();
    let counts = blocks.map(|(k, block)| {
        assert_eq!(image.block(k as u32), Ok(block));
        image.play_block(k as u32, &mut out).map(|played| played.samples)
    });
    let played = counts.sum::<Result<usize, Refusal>>();
    let whole = image.play();
    assert_eq!(played, whole.clone().map(|samples| samples.len()));
    let middle = image.head().total / 2;
    let rest = whole.map(|samples| samples[middle as usize..].to_vec());
    assert_eq!(image.part(middle..u32::MAX), rest);
    true
}

#[test]
fn damage_in_many_places() {
    let mut random = Random(7);
    let images = [(1, 8), (15, 8), (200, 40), (300, 65_536)].map(|(n, b)| encode(&tone(n), b));
    let mut opened = 0;
    for turn in 0..20_000 {
        let mut bytes = images[turn % images.len()].clone();
        for _ in 0..1 + random.next() % 4 {
            let place = random.next() as usize % bytes.len();
            bytes[place] = random.next() as u8;
        }
        opened += usize::from(read_all(&bytes));
    }
    assert!(opened > 1000 && opened < 19_000);
}

#[test]
fn bytes_that_are_no_image() {
    let mut random = Random(8);
    for length in 0..2000 {
        let mut bytes: Vec<u8> = (0..length).map(|_| random.next() as u8).collect();
        assert!(!read_all(&bytes));
        if length >= 4 {
            bytes[..4].copy_from_slice(b"DSPC");
            assert!(!read_all(&bytes));
        }
    }
}
