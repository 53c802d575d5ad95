//! Clips with loops: encoded through C and through the crate, opened, played and damaged.

use crate::c_calls;
use crate::c_encoding;
use crate::calls;
use crate::convert::{library_start, number, state};
use crate::encoding::{compare_sizes, random_start};
use crate::loop_damages::compare_damages;
use crate::loop_steps::loop_steps;
use crate::reading;
use crate::tally::Tally;
use crate::turns::{compare_all_turns, compare_part};
use clip_list::{Case, Loop, Machine, Start, State, image_of, random_loop, random_samples};
use doilycairn::{Encoder, Refusal};
use image_list::reader;
use image_list::{loop_place, put_any_bytes, put_any_histories};
use oracle::random::Random;

/// Every loop of two frames in blocks of one and of two, loops around the edges of blocks, and starts in the last, short frame.
pub fn fixed(tally: &mut Tally) {
    let mut random = Random::new(1);
    for size in [8, 16] {
        let starts = 0..28;
        let loops = starts.flat_map(|start| (start + 1..=28).map(move |end| Loop { start, end }));
        every(&mut random, 28, size, loops, tally);
    }
    for (total, size) in [(70, 16), (85, 24)] {
        let edges = edges(total, size);
        let pairs = edges.iter().flat_map(|start| edges.iter().map(|end| (*start, *end)));
        let loops = pairs.map(|(start, end)| Loop { start, end });
        every(&mut random, total, size, loops.filter(|looped| looped.is_within(total)), tally);
    }
    for last in 1..14 {
        let total = 14 * (last % 3) + last;
        let loops = (total - last..total).map(|start| Loop { start, end: total });
        every(&mut random, total, 8 + 8 * (last % 2), loops, tally);
    }
}

/// The ends of blocks and of the clip, one before and one after.
fn edges(total: u32, size: u32) -> Vec<u32> {
    let per_block = size / 8 * 14;
    let edges = (0..total).step_by(per_block as usize).chain([total]);
    let near = edges.flat_map(|edge| [edge.saturating_sub(1), edge, edge + 1]);
    near.filter(|edge| *edge <= total).collect()
}

/// A clip with each of these loops, cut in two anywhere.
fn every(
    random: &mut Random,
    total: u32,
    size: u32,
    loops: impl Iterator<Item = Loop>,
    tally: &mut Tally,
) {
    let samples = random.tone(total as usize);
    let clip = Start { size, ..random_start(random, &samples) };
    for looped in loops {
        let start = Start { looped: Some(looped), ..clip.clone() };
        let (before, after) = samples.split_at(random.below(samples.len() + 1));
        let case = Case::clip(&start, &[before, after], random.below(3));
        compare_clip(&start, &samples, &case, tally);
        let image = image_of(&start, &[&samples]);
        read(&image, tally);
        if random.below(16) == 0 {
            compare_damages(random, &image, tally);
        }
    }
}

/// A random clip with a loop, with refused calls and undone pieces; its image, with other histories and any bytes, and damaged.
pub fn random(random: &mut Random, tally: &mut Tally) {
    let samples = random_samples(random);
    let start = random_start(random, &samples);
    let looped = Some(random_loop(random, start.total, start.block()));
    let start = Start { looped, ..start };
    let case = loop_steps(random, &start, &samples);
    compare_clip(&start, &samples, &case, tally);
    let mut image = image_of(&start, &[&samples]);
    image.resize(image.len() + random.below_one(&[1, 20]), 0x5a);
    read(&image, tally);
    compare_damages(random, &image, tally);
    let whole = start.image_size() as usize;
    compare_others(random, &image[..whole], tally);
}

/// The calls through C and through the crate, the image, and an encoder with a buffer of its own.
fn compare_clip(start: &Start, samples: &[i16], case: &Case, tally: &mut Tally) {
    compare_sizes(start, tally);
    calls::compare(case, tally);
    let buffer = c_encoding::compare(case, tally);
    let right = image_of(start, &[samples]);
    let input = (start, samples);
    tally.compare("loop image", &input, buffer[..right.len()].to_vec(), right.clone());
    let library = own_buffer(start, samples).map_err(number);
    tally.compare("Encoder", &input, library, Ok((closed_state(case), right)));
}

/// The state and the image of the crate's encoder.
fn own_buffer(start: &Start, samples: &[i16]) -> Result<(State, Vec<u8>), Refusal> {
    let mut encoder = Encoder::start(&library_start(start))?;
    encoder.feed(samples)?;
    encoder.close()?;
    Ok((state(&encoder.state()), encoder.image().to_vec()))
}

/// The state that a case leads to.
fn closed_state(case: &Case) -> State {
    let mut machine = Machine::default();
    case.0.iter().for_each(|step| _ = machine.take(step));
    machine.state
}

/// Opens a clip's image and plays its loop, also from its first sample on.
fn read(image: &[u8], tally: &mut Tally) {
    c_calls::compare_open(image, &reader::open(image), tally);
    reading::compare_open(image, tally);
    compare_all_turns(image, tally);
    compare_part(image, tally);
}

/// The image with another stored history, with any histories, and with any bytes: it opens, and each turn sounds accordingly.
fn compare_others(random: &mut Random, image: &[u8], tally: &mut Tally) {
    let mut altered = image.to_vec();
    let history = loop_place(image) + 10;
    altered[history..history + 4].fill_with(|| random.bits() as u8);
    let mut histories = image.to_vec();
    put_any_histories(random, &mut histories);
    let mut any = image.to_vec();
    put_any_bytes(random, &mut any);
    for image in [altered, histories, any] {
        c_calls::compare_open(&image, &reader::open(&image), tally);
        reading::compare_open(&image, tally);
        compare_all_turns(&image, tally);
    }
}
