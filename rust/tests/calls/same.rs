//! Two images are the same when all that counts of them is: samples, head, contexts and loop.

use crate::clips::{Random, clips, encode, encode_from, noise, start_of, tone, with_loop};
use crate::made::{Made, MadeLoop};
use doilycairn::{
    Coefficients, Encoder, FrameContext, Head, Image, Loop, Refusal, Start, same, sounds_same,
};

/// Both meanings, asked in both directions and of opened images too: the same, and the same sound.
#[track_caller]
fn compared(first: &[u8], second: &[u8]) -> (bool, bool) {
    let (a, b) = (Image::open(first).unwrap(), Image::open(second).unwrap());
    let answer = (same(first, second).unwrap(), sounds_same(first, second).unwrap());
    assert_eq!((same(second, first), sounds_same(second, first)), (Ok(answer.0), Ok(answer.1)));
    assert_eq!((a.same(&b), a.sounds_same(&b)), (Ok(answer.0), Ok(answer.1)));
    assert!(answer.1 || !answer.0, "the same, and not the same sound");
    answer
}

const SAME: (bool, bool) = (true, true);
const ONLY_THE_SOUND: (bool, bool) = (false, true);
const NEITHER: (bool, bool) = (false, false);

#[track_caller]
fn made_compared(first: &Made, second: &Made) -> (bool, bool) {
    compared(&first.bytes(), &second.bytes())
}

// ---- worked

#[test]
fn the_worked_table() {
    let first = Made::silent(28, 8);
    let second = |alter: fn(&mut Made)| made_compared(&first, &first.but(alter));
    assert_eq!(second(|_| {}), SAME);
    assert_eq!(second(|made| made.rate = 8001), ONLY_THE_SOUND);
    assert_eq!(second(|made| made.gain = 1), ONLY_THE_SOUND);
    assert_eq!(second(|made| made.coefficients[15] = 1), ONLY_THE_SOUND);
    assert_eq!(made_compared(&first, &Made::silent(28, 16)), ONLY_THE_SOUND);
    assert_eq!(second(|made| made.frames[1][0] = 0x80), SAME);
    assert_eq!(second(|made| made.frames[1][0] = 0x03), ONLY_THE_SOUND);
    assert_eq!(second(|made| made.histories[1][0] = 5), ONLY_THE_SOUND);
}

#[test]
fn the_worked_table_in_one_block_and_with_an_odd_tail() {
    let first = Made::silent(28, 16);
    let second = first.but(|made| made.frames[1][0] = 0x03);
    assert_eq!(made_compared(&first, &second), SAME);
    let first = Made::silent(15, 8);
    let second = first.but(|made| made.frames[1][1] = 0x0f);
    assert_ne!(first.bytes(), second.bytes());
    assert_eq!(made_compared(&first, &second), SAME);
}

#[test]
fn the_worked_table_with_a_loop() {
    let first = Made::silent(28, 8).but(|made| made.looped = Some((3, 20, [0, 0])));
    let second = |alter: fn(&mut Made)| made_compared(&first, &first.but(alter));
    assert_eq!(second(|_| {}), SAME);
    assert_eq!(second(|made| made.looped = None), ONLY_THE_SOUND);
    assert_eq!(second(|made| made.looped = Some((3, 21, [0, 0]))), ONLY_THE_SOUND);
    assert_eq!(second(|made| made.looped = Some((3, 20, [0, 1]))), ONLY_THE_SOUND);
    assert_eq!(second(|made| made.frames[0][0] = 0x80), SAME);
}

// ---- every field

/// Five frames of silence in blocks of two, with an odd tail and a loop that begins in a frame within a block.
fn silence() -> Made {
    Made::silent(61, 16).but(|made| made.looped = Some((20, 50, [0, 0])))
}

#[test]
fn every_field_of_the_head_counts() {
    let first = silence();
    for rate in [1, 7999, 8001, 8000 + (1 << 8), 8000 + (1 << 16), 8000 + (1 << 24)] {
        assert_eq!(made_compared(&first, &first.but(|made| made.rate = rate)), ONLY_THE_SOUND);
    }
    for bit in 0..16 {
        assert_eq!(made_compared(&first, &first.but(|made| made.gain = 1 << bit)), ONLY_THE_SOUND);
    }
    for (place, bit) in (0..16).flat_map(|place| (0..16).map(move |bit| (place, bit))) {
        let second = first.but(|made| made.coefficients[place] = (1_u16 << bit) as i16);
        assert_eq!(made_compared(&first, &second), ONLY_THE_SOUND, "{place} {bit}");
    }
    for block in [8, 24, 32, 40, 65_536] {
        let second = Made::silent(61, block).but(|made| made.looped = first.looped);
        assert_eq!(made_compared(&first, &second), ONLY_THE_SOUND, "{block}");
    }
    let second = Made::silent(62, 16).but(|made| made.looped = first.looped);
    assert_eq!(made_compared(&first, &second), NEITHER);
}

#[test]
fn every_context_of_a_block_counts() {
    let first = silence();
    assert_eq!(first.histories.len(), 3);
    for k in 0..3 {
        for (place, bit) in (0..2).flat_map(|place| (0..16).map(move |bit| (place, bit))) {
            let second = first.but(|made| made.histories[k][place] = (1_u16 << bit) as i16);
            assert_eq!(made_compared(&first, &second), ONLY_THE_SOUND, "{k} {place} {bit}");
        }
        for header in 0..=255 {
            let second = first.but(|made| made.frames[2 * k][0] = header);
            let expected = if header % 128 == 0 { SAME } else { ONLY_THE_SOUND };
            assert_eq!(made_compared(&first, &second), expected, "{k} {header:02x}");
        }
    }
}

#[test]
fn all_of_the_loop_counts() {
    let first = silence();
    let second =
        |looped: Option<MadeLoop>| made_compared(&first, &first.but(|made| made.looped = looped));
    assert_eq!(second(None), ONLY_THE_SOUND);
    for (start, end) in [(0, 50), (19, 50), (21, 50), (49, 50), (20, 21), (20, 49), (20, 61)] {
        assert_eq!(second(Some((start, end, [0, 0]))), ONLY_THE_SOUND, "{start} {end}");
    }
    for bit in 0..16 {
        let sample = (1_u16 << bit) as i16;
        assert_eq!(second(Some((20, 50, [sample, 0]))), ONLY_THE_SOUND);
        assert_eq!(second(Some((20, 50, [0, sample]))), ONLY_THE_SOUND);
    }
    // Frame 1 begins no block: its header is repeated in the loop's entry alone.
    for header in 0..=255 {
        let second = first.but(|made| made.frames[1][0] = header);
        let expected = if header % 128 == 0 { SAME } else { ONLY_THE_SOUND };
        assert_eq!(made_compared(&first, &second), expected, "{header:02x}");
    }
    let none = first.but(|made| made.looped = None);
    assert_eq!(made_compared(&none, &none), SAME);
}

#[test]
fn samples_and_their_count_count() {
    let clip = tone(300);
    let start = start_of(&clip, 64);
    let image = encode_from(&start, &clip);
    let mut other = image.clone();
    // The last nibble: only the last sample hears it. 300 = 21 × 14 + 6.
    *other.last_mut().unwrap() ^= 0x01;
    assert_eq!(compared(&image, &other), NEITHER);
    let images = [14, 27, 28, 56].map(|count| encode(&vec![0; count], 16));
    for (i, first) in images.iter().enumerate() {
        for (j, second) in images.iter().enumerate() {
            assert_eq!(compared(first, second), (i == j, i == j));
        }
    }
}

// ---- what does not count

#[test]
fn top_bits_of_all_headers_do_not_count() {
    for first in [silence(), silence().but(|made| made.looped = None)] {
        let second = first.but(|made| made.frames.iter_mut().for_each(|frame| frame[0] |= 0x80));
        assert_ne!(first.bytes(), second.bytes());
        assert_eq!(made_compared(&first, &second), SAME);
        for f in 0..5 {
            let second = first.but(|made| made.frames[f][0] |= 0x80);
            assert_eq!(made_compared(&first, &second), SAME, "{f}");
        }
    }
}

#[test]
fn headers_within_a_block_count_by_their_samples() {
    let first = silence().but(|made| made.looped = None);
    for (f, header) in [1, 3].into_iter().flat_map(|f| (0..=255).map(move |header| (f, header))) {
        let second = first.but(|made| made.frames[f][0] = header);
        assert_eq!(made_compared(&first, &second), SAME, "{f} {header:02x}");
    }
    let loud = first.but(|made| made.frames[3][1] = 0x10);
    let louder = loud.but(|made| made.frames[3][0] = 1);
    assert_eq!(made_compared(&loud, &louder), NEITHER);
}

#[test]
fn the_spare_nibble_does_not_count() {
    for total in 1..=42_u32 {
        let (last, odd) = (total.div_ceil(14) as usize - 1, total % 2 == 1);
        // The byte of the last sample, whose low nibble is that sample's or spare.
        let place = 1 + (total as usize - 14 * last - 1) / 2;
        let first = Made::silent(total, 16);
        for low in 1..16 {
            let second = first.but(|made| made.frames[last][place] = low);
            let expected = if odd { SAME } else { NEITHER };
            assert_eq!(made_compared(&first, &second), expected, "{total} {low}");
        }
        let second = first.but(|made| made.frames[last][place] = 0x10);
        assert_eq!(made_compared(&first, &second), NEITHER, "{total}");
    }
}

#[test]
fn bytes_after_the_image_do_not_count() {
    for first in [silence(), silence().but(|made| made.looped = None)] {
        for after in [vec![0], vec![0xff; 100], first.bytes()] {
            let second = first.but(|made| made.after = after.clone());
            assert_eq!(made_compared(&first, &second), SAME);
            let third = first.but(|made| made.after = after.iter().map(|byte| !byte).collect());
            assert_eq!(made_compared(&second, &third), SAME);
        }
    }
}

// ---- the relation

/// What counts of an image, as reading it tells.
type Essence = (Head, Vec<FrameContext>, Option<Loop>, Option<FrameContext>, Vec<i16>);

fn essence(bytes: &[u8]) -> Essence {
    let counted = |context: FrameContext| FrameContext {
        predictor_and_scale: context.predictor_and_scale % 128,
        ..context
    };
    let image = Image::open(bytes).unwrap();
    let contexts = image.blocks().map(|block| counted(block.context)).collect();
    let looped = (image.looped(), image.loop_context().map(counted));
    (*image.head(), contexts, looped.0, looped.1, image.play().unwrap())
}

/// An image of few choices, so that many are the same.
fn any(random: &mut Random) -> Made {
    let mut pick = |choices: &[u32]| choices[random.next() as usize % choices.len()];
    let mut made = Made::silent(pick(&[28, 29]), pick(&[8, 16]));
    made.rate = pick(&[8000, 8000, 8000, 8001]);
    made.coefficients[2 * pick(&[0, 7]) as usize] = pick(&[0, 0, 1]) as i16;
    for frame in &mut made.frames {
        frame[0] = pick(&[0, 0, 0, 0x80, 0x80, 0x80, 0x70]) as u8;
    }
    made.frames.last_mut().unwrap()[1] = pick(&[0, 0, 1, 0x10]) as u8;
    made.histories[0][1] = pick(&[0, 0, 0, 1]) as i16;
    let history = [pick(&[0, 0, 1]) as i16, 0];
    made.looped = [None, Some((14, 28, history))][pick(&[0, 1]) as usize];
    made.after = vec![9; pick(&[0, 3]) as usize];
    made
}

#[test]
fn the_same_exactly_where_all_that_counts_is() {
    let mut random = Random(7);
    let images: Vec<_> = (0..300).map(|_| any(&mut random).bytes()).collect();
    let essences: Vec<_> = images.iter().map(|image| essence(image)).collect();
    let (mut equal, mut sounding) = (0, 0);
    for (a, x) in images.iter().zip(&essences) {
        for (b, y) in images.iter().zip(&essences) {
            let answer = compared(a, b);
            assert_eq!(answer, (x == y, x.4 == y.4));
            equal += usize::from(answer.0 && a != b);
            sounding += usize::from(answer.1 && !answer.0);
        }
    }
    assert!(equal > 300 && sounding > 3000, "{equal} {sounding}");
}

#[test]
fn reflexive_symmetric_and_transitive() {
    let mut random = Random(8);
    let images: Vec<_> = (0..150).map(|_| any(&mut random).bytes()).collect();
    let row = |a: &Vec<u8>| images.iter().map(|b| compared(a, b)).collect();
    let answers: Vec<Vec<_>> = images.iter().map(row).collect();
    let mut chains = 0;
    for i in 0..images.len() {
        assert_eq!(answers[i][i], SAME);
        for j in 0..images.len() {
            assert_eq!(answers[i][j], answers[j][i]);
            for k in (0..images.len()).filter(|k| answers[i][j].0 && answers[j][*k].0) {
                assert!(answers[i][k].0);
                chains += usize::from(i != j && j != k && i != k);
            }
        }
    }
    assert!(chains > 100, "{chains}");
}

/// The image of 61 samples of noise in blocks of two frames, with a loop or without.
fn noisy(looped: Option<(u32, u32)>) -> Vec<u8> {
    let clip = noise(61, 9000, 5);
    // Every pair another, so that it is heard which one a frame takes.
    let coefficients = Coefficients(std::array::from_fn(|i| 100 * i as i16 - 700));
    let start = Start { coefficients, ..start_of(&clip, 16) };
    encode_from(&looped.map_or(start, |points| with_loop(start, points)), &clip)
}

#[test]
fn every_bit_of_an_image() {
    for (looped, uncounted) in [(None, 2 + 4), (Some((20, 50)), 1 + 4)] {
        let whole = noisy(looped);
        let kept = essence(&whole);
        let mut equal = 0;
        for (place, bit) in (0..whole.len()).flat_map(|place| (0..8).map(move |bit| (place, bit))) {
            let mut bytes = whole.clone();
            bytes[place] ^= 1 << bit;
            match Image::open(&bytes) {
                Ok(_) => {
                    let other = essence(&bytes);
                    assert_eq!(compared(&whole, &bytes), (kept == other, kept.4 == other.4));
                    equal += usize::from(kept == other);
                }
                Err(why) => assert_eq!(same(&whole, &bytes), Err(why)),
            }
        }
        // The top bits of headers that no entry repeats, and the spare nibble.
        assert_eq!(equal, uncounted);
    }
}

#[test]
fn an_image_is_the_same_however_it_was_cut() {
    for clip in clips() {
        let start = start_of(&clip, 24);
        let whole = encode_from(&start, &clip);
        let mut encoder = Encoder::start(&start).unwrap();
        clip.chunks(11).for_each(|piece| encoder.feed(piece).unwrap());
        encoder.close().unwrap();
        assert_eq!(compared(&whole, encoder.image()), SAME);
        for other in [Start { rate: 44_100, ..start }, Start { gain: 8, ..start }] {
            assert_eq!(compared(&whole, &encode_from(&other, &clip)), ONLY_THE_SOUND);
        }
        assert_eq!(compared(&whole, &encode(&clip, 8)), ONLY_THE_SOUND);
    }
}

// ---- refusals

#[test]
fn the_first_image_is_tested_first() {
    let good = encode_from(&with_loop(start_of(&tone(100), 8), (20, 40)), &tone(100));
    let with = |place: usize, values: &[u8]| {
        let mut bytes = good.clone();
        bytes[place..place + values.len()].copy_from_slice(values);
        bytes
    };
    let lowest = with(44, &[0x80, 0, 0x80, 0]);
    let entry = |block: usize, place: usize| with(56 + 16 * block + place, &[0xff]);
    let (offset, other_offset, length, header, looped) =
        (entry(0, 0), entry(7, 0), entry(5, 15), entry(7, 8), entry(8, 15));
    let all = [
        (&good[..], None),
        (&good[..9], Some(Refusal::BadHead)),
        (&offset, Some(Refusal::BadOffset { block: 0 })),
        (&other_offset, Some(Refusal::BadOffset { block: 7 })),
        (&length, Some(Refusal::BadLength { block: 5 })),
        (&header, Some(Refusal::BadHeader { block: 7 })),
        (&looped, Some(Refusal::BadLoop)),
        (&lowest, Some(Refusal::LowestPair)),
    ];
    for (first, first_why) in all {
        for (second, second_why) in all {
            let expected = first_why.or(second_why).map_or(Ok(true), Err);
            assert_eq!(same(first, second), expected);
            assert_eq!(sounds_same(first, second), expected);
        }
    }
}

#[test]
fn an_image_that_differs_is_still_tested_whole() {
    let good = encode(&tone(100), 8);
    let mut other = encode(&noise(300, 9000, 1), 16);
    let last = 56 + 16 * 10;
    other[last + 15] = 1;
    for compare in [same, sounds_same] {
        assert_eq!(compare(&good, &other), Err(Refusal::BadLength { block: 10 }));
        assert_eq!(compare(&other, &good), Err(Refusal::BadLength { block: 10 }));
    }
    other[last + 15] = 0;
    other[44..48].copy_from_slice(&[0x80, 0, 0x80, 0]);
    for compare in [same, sounds_same] {
        assert_eq!(compare(&good, &other), Err(Refusal::LowestPair));
        assert_eq!(compare(&other, &good), Err(Refusal::LowestPair));
    }
}
