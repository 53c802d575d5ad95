//! What is closed opens and plays, near the original.

use crate::clips::{clips, encode, start_of, tone};
use doilycairn::{Image, image_size};

const BLOCK_SIZES: [u32; 6] = [8, 15, 16, 64, 1000, 65_536];

#[test]
fn the_image_says_what_the_clip_was_started_with() {
    for clip in clips() {
        for block_size in BLOCK_SIZES {
            let start = start_of(&clip, block_size);
            let bytes = encode(&clip, block_size);
            assert_eq!(Some(bytes.len()), start.image_size());
            assert_eq!(Some(bytes.len()), image_size(clip.len() as u32, block_size));
            let head = *Image::open(&bytes).unwrap().head();
            assert_eq!((head.total, head.rate, head.gain), (start.total, start.rate, start.gain));
            assert_eq!((head.block, head.coefficients), (block_size / 8 * 8, start.coefficients));
            let frames = clip.len().div_ceil(14) as u32;
            assert_eq!(head.blocks, (8 * frames).div_ceil(head.block));
        }
    }
}

/// Plays an image and tests each sample's distance from its original; gives how many have a bound.
pub fn near_its_original(bytes: &[u8], clip: &[i16]) -> usize {
    let image = Image::open(bytes).unwrap();
    let played = image.play().unwrap();
    assert_eq!(played.len(), clip.len());
    let headers = image.blocks().flat_map(|block| block.bytes.iter().step_by(8));
    let frames = clip.chunks(14).zip(played.chunks(14));
    let mut bounded = 0;
    for (header, (original, played)) in headers.zip(frames) {
        let exponent = header & 15;
        if exponent < 12 {
            let most = (3 * (1 << exponent) + 1) / 2;
            for (a, b) in original.iter().zip(played) {
                assert!((i32::from(*a) - i32::from(*b)).abs() <= most);
                bounded += 1;
            }
        }
    }
    bounded
}

#[test]
fn each_sample_is_near_its_original() {
    let mut bounded = 0;
    for clip in clips() {
        for block_size in BLOCK_SIZES {
            bounded += near_its_original(&encode(&clip, block_size), &clip);
        }
    }
    assert!(bounded > 10_000);
}

/// Plays an image in every way there is.
pub fn played_alike(bytes: &[u8]) {
    let image = Image::open(bytes).unwrap();
    let whole = image.play().unwrap();
    assert_eq!(whole.len(), image.head().total as usize);
    assert_eq!(image.samples().unwrap().collect::<Vec<_>>(), whole);
    let mut longer = vec![0x5a; whole.len() + 2];
    let all = image.play_into(&mut longer).unwrap();
    assert_eq!((all.samples, &longer[..whole.len()]), (whole.len(), &whole[..]));
    assert_eq!(longer[whole.len()..], [0x5a; 2]);
    assert_eq!(image.part(0..u32::MAX).as_ref(), Ok(&whole));
    let mut at = 0;
    let mut last = None;
    for (k, block) in image.blocks().enumerate() {
        assert_eq!(image.block(k as u32), Ok(block));
        let mut out = vec![0x5a; block.sample_count() + 2];
        let played = image.play_block(k as u32, &mut out).unwrap();
        assert_eq!(played.samples, block.sample_count());
        assert_eq!(out[..played.samples], whole[at..at + played.samples]);
        assert_eq!(out[played.samples..], [0x5a; 2]);
        let mut again = vec![0; played.samples];
        assert_eq!(block.play(&mut again), Ok(played));
        assert_eq!(again, out[..played.samples]);
        let part = at as u32..(at + played.samples) as u32;
        assert_eq!(image.part(part), Ok(again));
        at += played.samples;
        last = Some(played.context);
    }
    assert_eq!((at, last), (whole.len(), Some(all.context)));
}

#[test]
fn all_ways_to_play_agree() {
    for clip in clips() {
        for block_size in BLOCK_SIZES {
            played_alike(&encode(&clip, block_size));
        }
    }
}

#[test]
fn offsets_and_lengths_above_16_bits() {
    let bytes = encode(&tone(300_000), 65_536);
    let image = Image::open(&bytes).unwrap();
    assert_eq!(image.block(0).unwrap().nibbles, 131_072);
    played_alike(&bytes);
}

#[test]
fn the_samples_in_turn_know_how_many_are_left() {
    let clip = tone(100);
    let bytes = encode(&clip, 16);
    let mut samples = Image::open(&bytes).unwrap().samples().unwrap();
    for left in (0..100).rev() {
        assert!(samples.next().is_some());
        assert_eq!(samples.len(), left);
    }
    assert_eq!((samples.next(), samples.next()), (None, None));
}

#[test]
fn bytes_after_the_image_do_not_matter() {
    let clip = tone(200);
    let bytes = encode(&clip, 64);
    let longer = [&bytes[..], &[0xff; 33]].concat();
    let image = Image::open(&longer).unwrap();
    assert_eq!(image.play(), Image::open(&bytes).unwrap().play());
}
