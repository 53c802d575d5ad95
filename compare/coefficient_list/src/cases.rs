//! The fixed list.

use crate::kinds::{
    constant, geometric, harsh, impulses, noise, ramp, repeated, speech, square, tone,
};
use crate::{Clip, Cut, Step};
use oracle::random::Random;

/// Lengths around multiples of 14.
const LENGTHS: [usize; 18] = [0, 1, 2, 13, 14, 15, 27, 28, 29, 41, 42, 43, 55, 56, 57, 70, 97, 140];

/// The extremes, one after the other.
const EXTREMES: [i16; 2] = [i16::MIN, i16::MAX];

/// All clips, in order.
pub fn cases() -> Vec<Clip> {
    let mut cases = of_all_lengths();
    cases.extend(thresholds());
    cases.extend(nearly_constant());
    cases.extend(changes());
    cases.extend(long());
    cases.extend(cut_in_every_way());
    cases.extend(room());
    cases
}

/// The sounds of a length.
fn sounds(len: usize) -> Vec<Vec<i16>> {
    let mut random = Random::new(len as u64);
    vec![
        constant(0, len),
        constant(1, len),
        constant(-1, len),
        constant(1000, len),
        constant(i16::MIN, len),
        constant(i16::MAX, len),
        square(EXTREMES, 1, len),
        square(EXTREMES, 7, len),
        square([-1, 1], 1, len),
        square([-900, 1100], 5, len),
        square([0, i16::MAX], 3, len),
        impulses(i16::MAX, 0, 1000, len),
        impulses(i16::MIN, 13, 1000, len),
        impulses(4, 5, 14, len),
        impulses(-20_000, 3, 9, len),
        noise(&mut random, 1, len),
        noise(&mut random, 3, len),
        noise(&mut random, 500, len),
        noise(&mut random, 32_767, len),
        harsh(&mut random, len),
        tone(&[1.99], 12_000.0, len),
        tone(&[1.2], 3000.0, len),
        tone(&[-1.7, 0.3, 1.9], 9000.0, len),
        tone(&[1.95], 4.0, len),
        geometric(30_000.0, 0.9, len),
        geometric(20_000.0, -0.97, len),
        ramp(-3000, 100, len),
        ramp(0, 13_001, len),
        repeated(&[1000, -500, 250], len),
        repeated(&[0, 9000, 0, -9000], len),
        repeated(&[1, 2, 3, 4, 5, 6, 7, -7, -6, -5, -4, -3, -2, -1], len),
        speech(&mut random, 200, len),
        speech(&mut random, 6000, len),
    ]
}

/// Each sound at each length, the way to cut it changing from one to the next.
fn of_all_lengths() -> Vec<Clip> {
    let mut cuts = Cut::ALL.into_iter().cycle();
    let sounds = LENGTHS.into_iter().flat_map(sounds);
    sounds.zip(&mut cuts).map(|(samples, cut)| cut.apply(&samples)).collect()
}

/// Frames whose sum of squares is 10 or 11, first and after a loud frame, full and filled up.
fn thresholds() -> Vec<Clip> {
    let frames: [&[i16]; 12] = [
        &[3, 1],
        &[3, 1, 1],
        &[-3, 0, 0, -1],
        &[-3, 1, 0, -1],
        &[1; 10],
        &[1; 11],
        &[2, 2, 1, 1],
        &[2, 2, 1, 1, 1],
        &[0, 0, 0, 0, 0, 0, 0, 0, 0, 0, 0, 0, 3, 1],
        &[0, 0, 0, 0, 0, 0, 0, 0, 0, 0, 0, 1, 3, 1],
        &[1, -1, 1, -1, 1, -1, 1, -1, 1, -1],
        &[1, -1, 1, -1, 1, -1, 1, -1, 1, -1, 1],
    ];
    let mut cases = vec![];
    for frame in frames {
        let full = [frame, &[0; 14][frame.len()..]].concat();
        let loud = [ramp(-700, 111, 14), full.clone(), frame.to_vec()].concat();
        cases.extend([frame.to_vec(), full, loud].map(|samples| Cut::Whole.apply(&samples)));
    }
    cases
}

/// One level, but for one to three samples: ratios just above and just below the least that is analysed.
fn nearly_constant() -> Vec<Clip> {
    let mut clips = vec![];
    for level in [i16::MAX, i16::MIN, 30_000, -26_000, 20_000] {
        for (first, places, change) in [(26, 1, 1), (26, 1, 2), (26, 2, 1), (17, 1, 1), (17, 3, 1)]
        {
            let mut samples = constant(level, 43);
            for place in samples[first..].iter_mut().step_by(4).take(places) {
                *place -= change * level.signum();
            }
            clips.push(Cut::Whole.apply(&samples));
        }
    }
    clips
}

/// Sounds one after the other, so that some frames have records and some have none.
fn changes() -> Vec<Clip> {
    let sounds = sounds(37);
    let mut clips = vec![];
    for step in [1, 5, 7, 16] {
        for first in 0..sounds.len() {
            let places = (0..4).map(|number| (first + number * step) % sounds.len());
            let samples: Vec<_> = places.flat_map(|place| sounds[place].clone()).collect();
            let cut = Cut::ALL[(first + step) % Cut::ALL.len()];
            clips.push(if first % 2 == 0 { Cut::Whole } else { cut }.apply(&samples));
        }
    }
    clips.truncate(80);
    clips
}

/// Clips of many frames.
fn long() -> Vec<Clip> {
    let lengths = [251, 350, 449, 560, 700, 896];
    let mut clips = vec![];
    for (number, len) in lengths.into_iter().enumerate() {
        let mut random = Random::new(len as u64);
        let cuts = [Cut::Whole, Cut::Every(29 + number), Cut::Growing];
        let sounds = [
            speech(&mut random, 3000, len),
            speech(&mut random, 20_000, len),
            noise(&mut random, 20_000, len),
            random.tone(len),
        ];
        for (place, samples) in sounds.iter().enumerate() {
            clips.push(cuts[(number + place) % 3].apply(samples));
        }
    }
    clips
}

/// One clip cut in every way.
fn cut_in_every_way() -> Vec<Clip> {
    let samples = speech(&mut Random::new(7), 5000, 75);
    Cut::ALL.map(|cut| cut.apply(&samples)).to_vec()
}

/// Pieces that fill the store, and pieces for which it has no room.
fn room() -> Vec<Clip> {
    let samples = speech(&mut Random::new(8), 5000, 1024);
    let measure = |len: usize| Step::Measure(samples[..len].to_vec());
    vec![
        Clip(vec![measure(896), Step::Ask, measure(1), Step::Ask, measure(0), Step::Ask]),
        Clip(vec![measure(897), Step::Ask, measure(14), Step::Ask]),
        Clip(vec![measure(1024), measure(890), measure(7), Step::Ask, measure(6), Step::Ask]),
        Clip(vec![Step::Ask, Step::Ask, measure(3), measure(1000), Step::Ask]),
    ]
}
