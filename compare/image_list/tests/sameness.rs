//! What counts where two images are compared, and what does not: the worked table of change 7/13, each field, and random images.

use clip_list::{Loop, Start, image_of, ramp, random_samples, random_start, with_random_loop};
use image_list::reader::{Refused, open};
use image_list::{
    Case, Clip, ENTRY, HEAD, LOWEST, MARK_END, PAIRS, Sameness, alike, altered_field, cases,
    counted, frame_count, has_loop, loop_place, put_any_bytes, put_any_histories, put_quiet,
    regrouped, same, sameness, silence, sounds_same, spare_place, whole, with_header,
};
use oracle::list::Listed;
use oracle::random::Random;

/// The image with a byte put.
fn with(image: &[u8], place: usize, value: u8) -> Vec<u8> {
    let mut image = image.to_vec();
    image[place] = value;
    image
}

/// Whether two images are the same, and sound so, both ways.
fn both(first: &[u8], second: &[u8]) -> [bool; 2] {
    let right = [same(first, second).unwrap(), sounds_same(first, second).unwrap()];
    assert_eq!(right, [same(second, first).unwrap(), sounds_same(second, first).unwrap()]);
    right
}

#[test]
fn silence_is_zeros() {
    let image = silence(28, 8, Some((3, 20)));
    assert_eq!(image[HEAD + 3 * ENTRY..], [0; 16]);
    assert_eq!(image[loop_place(&image) + 8..][..8], [0; 8]);
    assert_eq!(image[8..50], [&[0, 0, 0x1f, 0x40, 0, 0, 0, 8][..], &[0; 34]].concat());
}

#[test]
fn the_worked_rows() {
    let image = silence(28, 8, None);
    let looped = silence(28, 8, Some((3, 20)));
    let one_block = silence(28, 16, None);
    let odd = silence(15, 8, None);
    assert_eq!((open(&image).unwrap().rate, odd.len()), (8000, 98));
    for (first, second, right) in [
        (&image, image.clone(), true),
        (&image, with(&image, 11, 0x41), false),
        (&image, with(&image, 49, 1), false),
        (&image, with(&image, 47, 1), false),
        (&image, one_block.clone(), false),
        (&image, with(&with(&image, 96, 0x80), 81, 0x80), true),
        (&image, with(&with(&image, 96, 0x03), 81, 0x03), false),
        (&image, with(&image, 83, 5), false),
        (&one_block, with(&one_block, 80, 0x03), true),
        (&odd, with(&odd, 97, 0x0f), true),
        (&looped, image.clone(), false),
        (&looped, with(&looped, 95, 21), false),
        (&looped, with(&looped, 101, 1), false),
        (&looped, with(&with(&with(&looped, 104, 0x80), 65, 0x80), 97, 0x80), true),
    ] {
        assert_eq!(both(first, &second), [right, true], "{second:?}");
    }
}

#[test]
fn the_list_has_the_worked_rows() {
    let rows =
        "1111 0011 0011 0011 0011 1111 0011 0011|1111|1111|0011 0011 0011 1111".replace(' ', "");
    let digit = |line: &str| line.strip_prefix("00 00000000 0000000").unwrap_or("-").to_owned();
    let digits = |case: &Case| case.answers().lines().map(digit).collect::<String>();
    let digits: Vec<_> = cases().iter().map(digits).collect();
    assert!(digits.windows(4).any(|four| four.join("|") == rows));
}

#[test]
fn the_first_image_is_tested_first() {
    let good = silence(15, 8, None);
    let mut lowest = good.clone();
    lowest[PAIRS..PAIRS + 4].copy_from_slice(&LOWEST);
    let (bad, entry) = (with(&good, MARK_END, 0), with(&good, HEAD + ENTRY + 3, 0));
    let refused = [&lowest, &bad, &entry].map(|image| counted(image).unwrap_err());
    assert_eq!(refused, [Refused::by(13), Refused::by(15), Refused { code: 20, block: 1 }]);
    for (first, why) in [&lowest, &bad, &entry].into_iter().zip(refused) {
        for second in [&lowest, &bad, &entry, &good] {
            assert_eq!((same(first, second), sounds_same(first, second)), (Err(why), Err(why)));
        }
        assert_eq!((same(&good, first), sounds_same(&good, first)), (Err(why), Err(why)));
    }
}

/// Random clips and images of them, some of any bytes, any histories, or of which much is not heard.
fn images(count: usize) -> impl Iterator<Item = (Clip, Vec<u8>)> {
    let mut random = Random::new(71);
    (0..count).map(move |i| {
        let samples = random_samples(&mut random);
        let start = random_start(&mut random, &samples);
        let start = with_random_loop(&mut random, start);
        let clip = Clip { start, samples };
        let mut image = clip.image();
        match i % 4 {
            1 => put_any_bytes(&mut random, &mut image),
            2 => put_any_histories(&mut random, &mut image),
            3 => put_quiet(&mut random, &mut image),
            _ => {}
        }
        (clip, image)
    })
}

#[test]
fn the_same_samples_sound_the_same_at_every_block_size() {
    for (clip, _) in images(300) {
        let image = clip.image();
        for size in [8, 24, 200] {
            let other = clip.image_at(size);
            let is_same = size == clip.start.block();
            assert_eq!(both(&image, &other), [is_same, true]);
        }
        if clip.samples.len() > 1 {
            assert_eq!(both(&image, &clip.image_of_first(clip.samples.len() - 1)), [false; 2]);
        }
        let none = clip.image_with(None);
        assert_eq!(both(&image, &none), [clip.start.looped.is_none(), true]);
        assert_eq!(
            regrouped(&none, 24),
            Clip { start: Start { looped: None, ..clip.start.clone() }, ..clip }.image_at(24)
        );
    }
}

#[test]
fn top_bits_spare_nibbles_and_bytes_after_do_not_count() {
    for (_, image) in images(400) {
        assert_eq!(whole(&image), image.len());
        let mut other = [&image[..], &[1, 2, 3]].concat();
        assert_eq!(both(&image, &other), [true; 2]);
        for frame in 0..frame_count(&image) {
            other = with_header(&other, frame, 0x80);
            assert_eq!(both(&image, &other), [true; 2]);
        }
        if let Some(place) = spare_place(&image) {
            (0..16).for_each(|bits| {
                assert_eq!(both(&other, &with(&image, place, image[place] ^ bits)), [true; 2]);
            });
        }
    }
}

#[test]
fn each_field_counts() {
    for (_, image) in images(400) {
        let entries = loop_place(&image) / ENTRY - 3 + usize::from(has_loop(&image));
        let histories =
            (0..entries).flat_map(|k| (10..14).map(move |part| HEAD + ENTRY * k + part));
        for place in (8..12).chain(17..48).chain(48..50).chain(histories) {
            let mut other = image.clone();
            other[place] ^= 0x02;
            let answer = sameness(&image, &other);
            assert!(!answer.is_ok_and(|answer| answer.same), "{place}");
        }
    }
}

#[test]
fn loops_count() {
    let (start, samples) = ramp(8, None);
    let image = |start_end: Option<(u32, u32)>| {
        let looped = start_end.map(|(start, end)| Loop { start, end });
        image_of(&Start { looped, ..start.clone() }, &[&samples])
    };
    let first = image(Some((5, 17)));
    for other in [None, Some((5, 18)), Some((4, 17)), Some((14, 17))] {
        assert_eq!(both(&first, &image(other)), [false, true]);
    }
    assert_eq!(both(&first, &image(Some((5, 17)))), [true; 2]);
}

#[test]
fn derived_images_have_every_answer() {
    let mut random = Random::new(72);
    let mut seen = [0; 3];
    let mut of_triples = [0; 2];
    for (clip, image) in images(3000) {
        let second = alike(&mut random, &clip, &image);
        let third = [alike, altered_field][random.below(2)](&mut random, &clip, &second);
        let [one, two, across] = [(&image, &second), (&second, &third), (&image, &third)]
            .map(|(first, second)| sameness(first, second).unwrap_or_default());
        for Sameness { same, sounds_same } in [one, two, across] {
            assert!(!same || sounds_same);
            seen[usize::from(same) + usize::from(sounds_same)] += 1;
        }
        if one.same && two.same {
            assert!(across.same);
            of_triples[usize::from(image != second && second != third)] += 1;
        }
    }
    assert!(seen.iter().all(|count| *count > 500), "{seen:?}");
    assert!(of_triples[1] > 300, "{of_triples:?}");
}
