//! Images with loops: the worked numbers of change 5/13, zeros until closing, and nothing else altered.

use clip_list::{
    Case, Loop, Machine, Start, Step, cases, image_of, ramp, random_samples, random_start,
    with_random_loop,
};
use oracle::list::Listed;
use oracle::random::Random;
use oracle::{FrameContext, decode};

/// The number of some bytes.
fn field(bytes: &[u8], place: usize, len: usize) -> usize {
    bytes[place..place + len].iter().fold(0, |sum, byte| sum << 8 | usize::from(*byte))
}

/// The digits of bytes.
fn digits(bytes: &[u8]) -> String {
    bytes.iter().map(|byte| format!("{byte:02X}")).collect()
}

/// The worked table: block size, start, end, S, and the entry.
const WORKED: [(u32, u32, u32, usize, &str); 5] = [
    (8, 5, 17, 116, "00000005 00000011 0000 0400 03FA 0000"),
    (8, 0, 20, 116, "00000000 00000014 0000 03E8 03DE 0000"),
    (8, 1, 3, 116, "00000001 00000003 0000 03E8 03E8 0000"),
    (8, 14, 20, 116, "0000000E 00000014 0007 0436 0430 0000"),
    (16, 19, 20, 100, "00000013 00000014 0007 0436 0436 0000"),
];

/// The image of the ramp.
fn ramp_image(size: u32, looped: Option<Loop>) -> Vec<u8> {
    let (start, samples) = ramp(size, looped);
    let image = image_of(&start, &[&samples]);
    assert_eq!(image.len() as u64, start.image_size());
    assert_eq!(digits(&image[image.len() - 12..]), "000666666666666607000000");
    image
}

#[test]
fn the_worked_images() {
    let plain = ramp_image(8, None);
    assert_eq!((plain.len(), digits(&plain[50..56])), (100, "000000000002".into()));
    assert_eq!([56, 72].map(|place| field(&plain, place, 4)), [88, 96]);
    for (size, start, end, whole, entry) in WORKED {
        let image = ramp_image(size, Some(Loop { start, end }));
        let blocks = field(&image, 52, 4);
        let place = 56 + 16 * blocks;
        assert_eq!((image.len(), field(&image, 50, 2)), (whole, 1));
        assert_eq!(digits(&image[place..place + 16]), entry.replace(' ', ""));
        let offsets: Vec<_> = (0..blocks).map(|k| field(&image, 56 + 16 * k, 4)).collect();
        assert_eq!(offsets, if size == 8 { vec![104, 112] } else { vec![88] });
    }
    let at_edge = ramp_image(8, Some(Loop { start: 14, end: 20 }));
    assert_eq!(at_edge[96..102], at_edge[80..86]);
}

#[test]
fn the_worked_images_are_in_the_list() {
    let answers: String = cases().iter().map(Case::answers).collect();
    for (size, start, end, ..) in WORKED {
        let image = digits(&ramp_image(size, Some(Loop { start, end }))).to_lowercase();
        assert_eq!(answers.matches(&format!(" {image}\n")).count(), 1, "{start}, {end}");
    }
}

#[test]
fn the_context_is_known_once_its_frame_is_encoded() {
    let context = |header, last_samples| FrameContext { predictor_and_scale: header, last_samples };
    for (start, end, after_14, closed) in [
        (5, 17, context(0, [1024, 1018]), context(0, [1024, 1018])),
        (14, 20, FrameContext::default(), context(7, [1078, 1072])),
        (19, 20, FrameContext::default(), context(7, [1078, 1078])),
    ] {
        let (start, samples) = ramp(8, Some(Loop { start, end }));
        let mut case = Case::clip(&start, &[&samples[..13], &samples[13..14], &samples[14..]], 0);
        let mut machine = Machine::default();
        let contexts: Vec<_> = case
            .0
            .drain(..)
            .map(|step| {
                assert_eq!(machine.take(&step), 0);
                machine.state.loop_context
            })
            .collect();
        let none = FrameContext::default();
        assert_eq!(contexts, [none, none, none, after_14, after_14, closed]);
    }
}

#[test]
fn refused_loops() {
    let (start, samples) = ramp(8, None);
    let room = start.image_size() as usize + 16;
    let code = |looped, room| {
        let start = Start { looped, ..start.clone() };
        Machine::default().take(&Step::Start { start, room, shown: false })
    };
    let total = samples.len() as u32;
    for (start, end) in [(3, 3), (4, 3), (0, total + 1), (0, 0), (total, total)] {
        assert_eq!(code(Some(Loop { start, end }), room), 23, "{start}, {end}");
        assert_eq!(code(Some(Loop { start, end }), 0), 23, "{start}, {end}");
    }
    let good = Some(Loop { start: 19, end: 20 });
    assert_eq!([code(good, room), code(good, room - 1), code(None, room - 16)], [0, 8, 0]);
    let one = Start { total: 1, looped: Some(Loop { start: 0, end: 1 }), ..start };
    assert_eq!(one.image_size(), 90);
}

/// Random clips with loops: what they are started with, and their samples.
fn clips() -> Vec<(Start, Vec<i16>)> {
    let mut random = Random::new(21);
    let mut clips = vec![];
    while clips.len() < 1000 {
        let samples = random_samples(&mut random);
        let start = random_start(&mut random, &samples);
        let start = with_random_loop(&mut random, start);
        clips.extend(start.looped.is_some().then_some((start, samples)));
    }
    clips
}

/// The samples that an image plays, each block from its own entry.
fn played(image: &[u8], start: &Start) -> Vec<i16> {
    let mut samples = vec![];
    for entry in (0..field(image, 52, 4)).map(|k| 56 + 16 * k) {
        let [offset, len] = [0, 4].map(|place| field(image, entry + place, 4));
        let [header, newest, older] = [8, 10, 12].map(|place| field(image, entry + place, 2));
        let last_samples = [newest as i16, older as i16];
        let context = FrameContext { predictor_and_scale: header as u16, last_samples };
        samples.extend(decode(&image[offset..], len, &start.coefficients, context).0);
    }
    samples
}

#[test]
fn an_entry_has_its_frames_header_and_the_samples_before() {
    for (start, samples) in clips() {
        let image = image_of(&start, &[&samples]);
        let place = 56 + 16 * field(&image, 52, 4);
        let Loop { start: first, end } = start.looped.unwrap();
        let [newest, older] = start.history;
        let before = [&[older, newest][..], &played(&image, &start)].concat();
        let numbers = [0, 4].map(|part| field(&image, place + part, 4) as u32);
        assert_eq!(numbers, [first, end]);
        let first = first as usize;
        let last_samples = [10, 12].map(|part| field(&image, place + part, 2) as i16);
        assert_eq!(last_samples, [before[first + 1], before[first]]);
        assert_eq!(field(&image, place + 8, 2), image[place + 16 + 8 * (first / 14)].into());
        assert_eq!(field(&image, place + 14, 2), 0);
    }
}

#[test]
fn a_loop_alters_nothing_but_its_entry_its_mark_and_the_offsets() {
    for (start, samples) in clips() {
        let image = image_of(&start, &[&samples]);
        let mut without = image_of(&Start { looped: None, ..start.clone() }, &[&samples]);
        let table = 56 + 16 * field(&image, 52, 4);
        without.splice(table..table, image[table..table + 16].to_vec());
        without[51] = 1;
        for place in (56..table).step_by(16) {
            let offset = field(&without, place, 4) as u32 + 16;
            without[place..place + 4].copy_from_slice(&offset.to_be_bytes());
        }
        assert_eq!(image, without);
    }
}

#[test]
fn mark_and_entry_are_zero_until_closing() {
    let mut random = Random::new(22);
    for (start, samples) in clips() {
        let pieces = random.cut(&samples);
        let mut machine = Machine::default();
        for step in Case::clip(&start, &pieces, 0).0 {
            assert_eq!(machine.take(&step), 0);
            let table = 56 + 16 * field(&machine.image, 52, 4);
            if let Step::Start { .. } | Step::Feed { .. } = step {
                assert_eq!(field(&machine.image, 50, 2), 1);
                assert_eq!(machine.image[..4], [0; 4]);
                assert_eq!(machine.image[table..table + 16], [0; 16]);
            }
        }
    }
}
