//! The reader plays from any sample on: the worked numbers of change 1/13, the parts of whole clips, and the refusals in their sequence.

use clip_list::{Start, image_of};
use image_list::reader::{Refused, long, open};
use image_list::{
    Call, Case, HEAD, LOWEST, Machine, PAIRS, Step, any_image, cases, clip_image,
    put_any_histories, random_run, table,
};
use oracle::decode;
use oracle::list::Listed;
use oracle::random::Random;

/// The count of samples and the blocks touched, or the refusal's number.
fn counts(image: &[u8], first: u32, room: usize) -> Result<(usize, u32), u8> {
    let run = open(image).and_then(|opened| opened.play_from(first, room));
    run.map(|(samples, blocks)| (samples.len(), blocks)).map_err(|refused| refused.code)
}

#[test]
fn the_worked_counts() {
    let image = clip_image(&mut Random::new(6), 15, 8);
    for (first, room, right) in [
        (0, 14, Ok((14, 1))),
        (0, 15, Ok((15, 2))),
        (13, 1, Ok((1, 1))),
        (13, 2, Ok((2, 2))),
        (14, 200, Ok((1, 1))),
        (14, 0, Ok((0, 0))),
        (15, 0, Err(19)),
        (15, 9, Err(19)),
        (u32::MAX, 1, Err(19)),
    ] {
        assert_eq!(counts(&image, first, room), right, "{first}, {room}");
    }
    let image = clip_image(&mut Random::new(7), 1000, 256);
    for (first, room, right) in [
        (400, 200, (200, 2)),
        (447, 1, (1, 1)),
        (448, 448, (448, 1)),
        (447, 450, (450, 3)),
        (999, 5, (1, 1)),
    ] {
        assert_eq!(counts(&image, first, room), Ok(right), "{first}, {room}");
    }
}

/// A ramp of 20 samples in two blocks.
fn ramp() -> Vec<u8> {
    let mut coefficients = [0; 16];
    coefficients[0] = 2048;
    let history = [1000, 990];
    let start =
        Start { total: 20, rate: 32_000, size: 8, gain: 0, coefficients, history, looped: None };
    let ramp: Vec<i16> = (0..20).map(|i| 1000 + 6 * i).collect();
    image_of(&start, &[&ramp])
}

/// Samples 5 to 16 of the ramp's image.
const PLAYED: [i16; 12] = [1030, 1036, 1042, 1048, 1054, 1060, 1066, 1072, 1078, 1078, 1078, 1078];

#[test]
fn the_worked_samples() {
    let image = ramp();
    let bodies = [0, 6, 0x66, 0x66, 0x66, 0x66, 0x66, 0x66, 7, 0, 0, 0];
    assert_eq!(image[table(&image)..], bodies);
    let run = open(&image).unwrap().play_from(5, 12);
    assert_eq!(run, Ok((PLAYED.to_vec(), 2)));
}

/// The lines of the calls on the first image of the list that is this one.
fn lines_of(image: &[u8]) -> Vec<String> {
    let is_put =
        |step: &Step| matches!(step, Step::Put { bytes, place: 0, .. } if image.starts_with(bytes));
    let case = cases().into_iter().find(|case| case.0.first().is_some_and(is_put)).unwrap();
    case.answers().lines().map(str::to_owned).collect()
}

#[test]
fn the_worked_lines() {
    let lines = lines_of(&ramp());
    let samples: String = PLAYED.iter().map(|sample| format!("{sample:04x}")).collect();
    assert_eq!(lines[1], format!("00 00000000 0000000c 00000002 {samples}"));
    assert_eq!(lines[4], "00 00000000 00000001 00000001 04365a5a5a5a");
}

/// The runs of a case: their first samples and rooms.
fn runs_of(case: &Case) -> Vec<(u32, usize)> {
    let run = |step: &Step| match step {
        Step::Call { call: Call::PlayFrom { first, room }, .. } => Some((*first, *room)),
        _ => None,
    };
    case.0.iter().filter_map(run).collect()
}

#[test]
fn every_first_sample_and_room_of_small_images_is_in_the_list() {
    let all: Vec<_> = cases().iter().map(runs_of).collect();
    for total in [1, 15, 20, 30] {
        let firsts = (0..=total + 1).chain([u32::MAX]);
        let every: Vec<_> = firsts
            .flat_map(|first| (0..=total as usize + 2).map(move |room| (first, room)))
            .collect();
        assert_eq!(all.iter().filter(|runs| **runs == every).count(), 1, "{total}");
    }
}

/// Whether an image's later blocks sound otherwise where each is played on from the one before.
fn has_other_histories(image: &[u8]) -> bool {
    let opened = open(image).unwrap();
    let (all, _) = opened.play_all(opened.total as usize).unwrap();
    let nibbles = opened.entries.iter().map(|entry| entry.nibbles).sum();
    let context = opened.entries[0].context;
    decode(&image[table(image)..], nibbles, &opened.coefficients, context).0 != all
}

#[test]
fn the_list_has_runs_into_blocks_that_begin_from_other_histories() {
    let mut seen = vec![];
    for case in cases().iter().filter(|case| runs_of(case).len() > 300) {
        let mut machine = Machine::default();
        case.0.iter().for_each(|step| _ = machine.take(step));
        let image = &machine.images[0];
        seen.push((long(image, 4), has_other_histories(image)));
    }
    assert_eq!(seen, [(15, false), (20, true), (30, true)]);
}

/// An image of a clip, of any bytes, or of a clip with any histories.
fn image(random: &mut Random) -> Vec<u8> {
    let (total, size) = (1 + random.below_one(&[20, 60, 300]), 8 + random.below(60) as u32);
    let mut image = clip_image(random, total, size);
    match random.below(3) {
        0 => return any_image(random, total, size),
        1 => put_any_histories(random, &mut image),
        _ => {}
    }
    image
}

#[test]
fn a_run_is_a_part_of_the_whole_clip() {
    let mut random = Random::new(8);
    for _ in 0..2000 {
        let image = image(&mut random);
        let opened = open(&image).unwrap();
        let (total, per_block) = (opened.total as usize, opened.block as usize / 8 * 14);
        let (all, _) = opened.play_all(total).unwrap();
        for _ in 0..10 {
            let (first, room) = random_run(&mut random, &image);
            let run = opened.play_from(first, room);
            if first as usize >= total {
                assert_eq!(run, Err(Refused::by(19)));
                continue;
            }
            let first = first as usize;
            let count = room.min(total - first);
            let blocks = match count {
                0 => 0,
                _ => (first + count - 1) / per_block - first / per_block + 1,
            };
            assert_eq!(run, Ok((all[first..first + count].to_vec(), blocks as u32)));
        }
    }
}

#[test]
fn refusals_stand_in_their_sequence() {
    let whole = clip_image(&mut Random::new(9), 15, 8);
    let mut image = whole.clone();
    assert_eq!(counts(&image, 15, 0), Err(19));
    image[PAIRS..PAIRS + 4].copy_from_slice(&LOWEST);
    assert_eq!([counts(&image, 0, 0), counts(&image, 15, 0)], [Err(13); 2]);
    for (place, code) in [(HEAD + 9, 22), (HEAD + 15, 21), (HEAD + 3, 20), (55, 15)] {
        image[place] ^= 1;
        assert_eq!(counts(&image, 15, 1), Err(code));
    }
}
