//! What docs/EDITOR.md says of a sound editor's screens.

use crate::clips::{encode, encode_from, every_loop, noise, start_of, tone, with_loop};
use doilycairn::{
    Block, Encoder, Image, Refusal, Start, address_to_sample, image_size, join, same, sounds_same,
};

#[path = "../../examples/undo.rs"]
mod undo_example;

#[test]
fn the_worked_example_of_undo_runs() {
    undo_example::main().unwrap();
}

#[path = "../../examples/peak.rs"]
mod peak_example;

#[test]
fn the_worked_example_of_a_meter_runs() {
    peak_example::main().unwrap();
}

#[path = "../../examples/loop_preview.rs"]
mod loop_example;

#[test]
fn the_worked_example_of_a_loop_runs() {
    loop_example::main().unwrap();
}

#[test]
fn the_worked_examples_in_the_document_are_the_files() {
    let document = include_str!("../../../docs/EDITOR.md");
    for (language, file) in [
        ("c", include_str!("../../../examples/undo.c")),
        ("rust", include_str!("../../examples/undo.rs")),
        ("rust", include_str!("../../examples/loop_preview.rs")),
        ("rust", include_str!("../../examples/peak.rs")),
    ] {
        assert!(document.contains(&format!("\n```{language}\n{file}```\n")), "{file}");
    }
}

#[test]
fn the_peak_of_the_first_samples_of_a_block() {
    let loudest = |samples: &[i16]| samples.iter().map(|s| s.unsigned_abs()).max().unwrap_or(0);
    for (total, block_size) in
        (1..=60).flat_map(|total| (8..=48).step_by(8).map(move |b| (total, b)))
    {
        let bytes = encode(&noise(total, 9000, total as u64), block_size);
        let image = Image::open(&bytes).unwrap();
        let whole = image.play().unwrap();
        for (k, block) in whole.chunks(block_size as usize / 8 * 14).enumerate() {
            for count in 0..=block.len() {
                let peak = peak_example::peak(&image, k as u32, count as u32);
                assert_eq!(peak, Ok(loudest(&block[..count])), "{total} {block_size} {k} {count}");
            }
        }
    }
}

#[test]
fn the_peak_of_a_largest_block() {
    let bytes = encode(&noise(114_688, 30_000, 3), 65_536);
    let image = Image::open(&bytes).unwrap();
    let whole = image.play().unwrap();
    for count in [0, 1, 13, 14, 15, 1000, 114_673, 114_674, 114_675, 114_687, 114_688] {
        let loudest = whole[..count].iter().map(|s| s.unsigned_abs()).max().unwrap_or(0);
        assert_eq!(peak_example::peak(&image, 0, count as u32), Ok(loudest));
    }
}

/// The bytes of all bodies.
fn bodies(bytes: &[u8]) -> &[u8] {
    let image = Image::open(bytes).unwrap();
    &bytes[56 + 16 * (image.head().blocks as usize + usize::from(image.looped().is_some()))..]
}

#[test]
fn trimming_the_end_keeps_every_full_frame_before_it() {
    let clip = noise(600, 9000, 5);
    let start = start_of(&clip, 64);
    let whole = encode_from(&start, &clip);
    for end in [1, 13, 14, 15, 223, 224, 225, 599] {
        let part = encode_from(&Start { total: end as u32, ..start }, &clip[..end]);
        let frames = end / 14 * 8;
        assert_eq!(bodies(&part)[..frames], bodies(&whole)[..frames]);
        let samples = end / 14 * 14;
        let play = |bytes| Image::open(bytes).unwrap().play().unwrap();
        assert_eq!(play(&part)[..samples], play(&whole)[..samples]);
    }
}

#[test]
fn trimming_to_a_frames_edge_with_the_history_there_keeps_the_frames() {
    let clip = noise(600, 9000, 5);
    let start = start_of(&clip, 64);
    let whole = encode_from(&start, &clip);
    for at in [14, 28, 112, 224, 588] {
        let mut encoder = Encoder::start(&start).unwrap();
        encoder.feed(&clip[..at]).unwrap();
        let history = encoder.state().history;
        let rest = Start { total: 600 - at as u32, history, ..start };
        let part = encode_from(&rest, &clip[at..]);
        assert_eq!(bodies(&part), &bodies(&whole)[at / 14 * 8..]);
        let play = |bytes| Image::open(bytes).unwrap().play().unwrap();
        assert_eq!(play(&part), play(&whole)[at..]);
    }
}

#[test]
fn the_history_at_a_blocks_edge_stands_in_its_entry() {
    let clip = noise(600, 9000, 5);
    let start = start_of(&clip, 64);
    let whole = encode_from(&start, &clip);
    let mut encoder = Encoder::start(&start).unwrap();
    for (block, piece) in Image::open(&whole).unwrap().blocks().zip(clip.chunks(112)) {
        let history = encoder.state().history;
        assert_eq!(block.context.last_samples, [history.newest, history.older]);
        encoder.feed(piece).unwrap();
    }
}

#[test]
fn a_trim_elsewhere_may_play_other_samples() {
    let clip = noise(600, 9000, 5);
    let start = start_of(&clip, 64);
    let play = |bytes: &[u8]| Image::open(bytes).unwrap().play().unwrap();
    let whole = play(&encode_from(&start, &clip));
    let part = play(&encode_from(&Start { total: 593, ..start }, &clip[7..]));
    assert_ne!(part, whole[7..]);
    // A last frame cut short is encoded with zeros after it.
    let part = play(&encode_from(&Start { total: 15, ..start }, &clip[..15]));
    assert_eq!(part[..14], whole[..14]);
    assert_ne!(part[14], whole[14]);
}

/// A loop from the last whole block back to the first, as joined bytes.
fn looped(image: &Image) -> (Vec<i16>, usize) {
    let (first, last) = (image.block(0).unwrap(), image.block(2).unwrap());
    let mut out = vec![0; first.bytes.len() + last.bytes.len()];
    let nibbles = join(&last, &first, &mut out).unwrap() as u32;
    let mut samples = vec![0; address_to_sample(nibbles) as usize];
    Block { bytes: &out, nibbles, ..last }.play(&mut samples).unwrap();
    (samples, last.sample_count())
}

#[test]
fn a_loop_repeats_what_was_heard() {
    let bytes = encode(&noise(60, 9000, 6), 16);
    let image = Image::open(&bytes).unwrap();
    let whole = image.play().unwrap();
    for (start, end) in every_loop(60) {
        let rounds = whole[start as usize..end as usize].iter().cycle();
        let heard = whole[..end as usize].iter().chain(rounds);
        for room in [1, 7, 28, 200] {
            let (mut at, mut played) = (0, vec![0; 200]);
            for buffer in played.chunks_mut(room) {
                at = loop_example::fill(&image, &(start..end), at, buffer).unwrap();
            }
            assert!(heard.clone().take(200).eq(&played), "{start} {end} {room}");
        }
    }
}

#[test]
fn a_stored_loop_repeats_what_was_heard() {
    let clip = noise(60, 9000, 6);
    for (start, end) in every_loop(60) {
        let bytes = encode_from(&with_loop(start_of(&clip, 16), (start, end)), &clip);
        let image = Image::open(&bytes).unwrap();
        let whole = image.play().unwrap();
        let (before, looped) = whole[..end as usize].split_at(start as usize);
        for turns in [0, 1, 3] {
            let heard = [before, &looped.repeat(turns)].concat();
            assert_eq!(loop_example::heard(&image, turns as u32), Ok(heard), "{start} {end}");
        }
    }
}

#[test]
fn of_a_clip_without_a_loop_all_is_heard() {
    let bytes = encode(&noise(60, 9000, 6), 16);
    let image = Image::open(&bytes).unwrap();
    assert_eq!(loop_example::heard(&image, 3), image.play());
}

#[test]
fn a_place_beyond_the_loop_begins_it_anew() {
    let bytes = encode(&noise(60, 9000, 6), 16);
    let image = Image::open(&bytes).unwrap();
    let whole = image.play().unwrap();
    for (looped, at) in [(10..20, 20), (10..20, 45), (50..60, 60), (10..20, u32::MAX)] {
        let (start, end) = (looped.start as usize, looped.end as usize);
        let mut out = [0; 10];
        assert_eq!(loop_example::fill(&image, &looped, at, &mut out), Ok(looped.end));
        assert_eq!(out, whole[start..end]);
    }
}

#[test]
fn a_loop_beyond_the_clip_is_refused() {
    let bytes = encode(&noise(60, 9000, 6), 16);
    let image = Image::open(&bytes).unwrap();
    let refused = Err(Refusal::NoSuchSample);
    assert_eq!(loop_example::fill(&image, &(50..61), 50, &mut [0; 11]), refused);
    assert_eq!(loop_example::fill(&image, &(60..61), 60, &mut [0; 1]), refused);
}

#[test]
#[should_panic(expected = "the loop has no sample")]
fn a_loop_without_a_sample_is_no_loop() {
    let bytes = encode(&noise(60, 9000, 6), 16);
    let image = Image::open(&bytes).unwrap();
    let _ = loop_example::fill(&image, &(5..5), 5, &mut [0; 1]);
}

#[test]
fn joined_bytes_go_on_from_where_the_first_block_ends_and_not_from_the_entry() {
    let bytes = encode(&tone(500), 64);
    let image = Image::open(&bytes).unwrap();
    let whole = image.play().unwrap();
    let (samples, seam) = looped(&image);
    assert_eq!(samples[..seam], whole[2 * 112..3 * 112]);
    assert_ne!(samples[seam..], whole[..112]);
    let first = image.block(0).unwrap();
    let mut ended = image.play_block(2, &mut [0; 112]).unwrap().context;
    ended.predictor_and_scale = first.context.predictor_and_scale;
    let mut out = [0; 112];
    Block { context: ended, ..first }.play(&mut out).unwrap();
    assert_eq!(samples[seam..], out);
}

#[test]
fn images_stand_one_after_the_other_in_a_bank() {
    let clips = [tone(100), noise(333, 9000, 1), tone(14), noise(2000, 30_000, 2)];
    let sizes = clips.each_ref().map(|clip| image_size(clip.len() as u32, 64).unwrap());
    let mut bank = vec![0x5a; sizes.iter().sum::<usize>() + 9];
    let mut at = 0;
    for (clip, size) in clips.iter().zip(sizes) {
        let mut encoder = Encoder::start_in(&start_of(clip, 64), &mut bank[at..]).unwrap();
        encoder.feed(clip).unwrap();
        encoder.close().unwrap();
        at += size;
        assert!(bank[at..].iter().all(|byte| *byte == 0x5a));
    }
    at = 0;
    for (clip, size) in clips.iter().zip(sizes) {
        assert_eq!(bank[at..at + size], encode(clip, 64));
        assert_eq!(same(&bank[at..], &encode(clip, 64)), Ok(true));
        let other = encode(clip, 4096);
        assert_eq!(sounds_same(&bank[at..], &other), Ok(true));
        assert_eq!(same(&bank[at..], &other), Ok(false));
        for (j, block) in Image::open(&bank[at..]).unwrap().blocks().enumerate() {
            let place = block.bytes.as_ptr() as usize - bank[at..].as_ptr() as usize;
            assert_eq!(place, size - bodies(&bank[at..at + size]).len() + 64 * j);
        }
        at += size;
    }
}

#[test]
fn a_step_that_alters_anything_but_the_samples_is_told_by_same_alone() {
    let clip = tone(1000);
    let start = start_of(&clip, 64);
    let image = encode_from(&start, &clip);
    assert_eq!(same(&image, &encode_from(&start, &clip)), Ok(true));
    for step in [
        Start { rate: 16_000, ..start },
        Start { gain: 8, ..start },
        Start { block_size: 80, ..start },
        with_loop(start, (140, 999)),
    ] {
        let other = encode_from(&step, &clip);
        assert_eq!((same(&image, &other), sounds_same(&image, &other)), (Ok(false), Ok(true)));
        assert_eq!(same(&other, &encode_from(&step, &clip)), Ok(true));
    }
}

#[test]
fn a_trim_in_other_blocks_sounds_the_same() {
    let clip = noise(1000, 9000, 3);
    let whole = Image::open(&encode(&clip, 64)).unwrap().play().unwrap();
    let coefficients = start_of(&clip, 64).coefficients;
    let trimmed = |block_size| {
        let start = Start { coefficients, ..start_of(&clip[..700], block_size) };
        encode_from(&start, &clip[..700])
    };
    let images = [8, 64, 80, 4096].map(trimmed);
    for (i, first) in images.iter().enumerate() {
        assert_eq!(Image::open(first).unwrap().play().unwrap(), whole[..700]);
        for (j, second) in images.iter().enumerate() {
            assert_eq!((same(first, second), sounds_same(first, second)), (Ok(i == j), Ok(true)));
        }
    }
}

#[test]
fn images_that_sound_the_same_have_the_same_levels() {
    let level = |image: &Image| {
        image.samples().unwrap().map(|sample| i64::from(sample).pow(2)).collect::<Vec<_>>()
    };
    let clips = [tone(300), noise(300, 9000, 1), vec![0; 300]];
    let images = clips.iter().flat_map(|clip| [8, 64].map(|block_size| encode(clip, block_size)));
    let images: Vec<_> = images.collect();
    let opened: Vec<_> = images.iter().map(|image| Image::open(image).unwrap()).collect();
    for (i, first) in opened.iter().enumerate() {
        for (j, second) in opened.iter().enumerate() {
            assert_eq!(first.sounds_same(second), Ok(i / 2 == j / 2));
            assert_eq!(level(first) == level(second), i / 2 == j / 2);
        }
    }
}

#[test]
fn the_originals_peak_is_near_the_peak_played() {
    let clip = tone(1000);
    let bytes = encode(&clip, 64);
    let image = Image::open(&bytes).unwrap();
    let loudest = |samples: &[i16]| samples.iter().map(|s| i32::from(*s).abs()).max().unwrap();
    let headers = image.blocks().flat_map(|block| block.bytes.iter().step_by(8));
    let played = image.play().unwrap();
    for ((header, original), played) in headers.zip(clip.chunks(14)).zip(played.chunks(14)) {
        let exponent = header & 15;
        assert!(exponent < 12);
        let most = (3 * (1 << exponent) + 1) / 2;
        assert!((loudest(original) - loudest(played)).abs() <= most);
    }
}
