//! Coefficients from older banks: |c0| + |c1| up to 61,440 in each pair.

use crate::banks::{of_pairs, older_banks, one_pair, pairs_of_sum, with_pair};
use crate::clips::{Random, clips, encode_from, start_of, tone};
use crate::cuts::same_in_any_cuts;
use crate::round_trip::{near_its_original, played_alike};
use doilycairn::*;

/// Bytes of the image of 20 samples in two blocks.
const SIZE: usize = 100;

/// What a call on a buffer gives: 0, or the number of its refusal, which leaves the buffer as it was.
fn number<T>(call: impl FnOnce(&mut [u8]) -> Result<T, Refusal>) -> u32 {
    let mut image = [0x5a; SIZE];
    let number = call(&mut image).err().map_or(0, Refusal::number);
    assert!(number == 0 || image == [0x5a; SIZE]);
    number
}

/// A start, a state that still takes samples and one that can be closed, of a clip of 20 samples.
struct Accepted {
    start: Start,
    begun: EncoderState,
    full: EncoderState,
}

impl Accepted {
    fn new() -> Self {
        let clip = tone(20);
        let start = start_of(&clip, 8);
        let mut encoder = Encoder::start(&start).unwrap();
        encoder.feed(&clip[..15]).unwrap();
        let begun = encoder.state();
        encoder.feed(&clip[15..]).unwrap();
        Self { start, begun, full: encoder.state() }
    }

    /// What they give with other coefficients: starting in both ways, one frame, feeding, closing.
    fn numbers(&self, coefficients: Coefficients) -> [u32; 5] {
        let start = Start { coefficients, ..self.start };
        let begun = EncoderState { coefficients, ..self.begun };
        let full = EncoderState { coefficients, ..self.full };
        [
            number(|image| EncoderState::start(&start, image)),
            number(|_| Encoder::start(&start)),
            number(|_| encode_frame(History::default(), &[1; 14], &coefficients)),
            number(|image| begun.feed(&[1; 3], image)),
            number(|image| full.close(image)),
        ]
    }
}

const TAKEN: [u32; 5] = [0; 5];
const REFUSED: [u32; 5] = [7, 7, 7, 1, 1];

#[test]
fn the_worked_pairs() {
    let accepted = Accepted::new();
    for (pair, numbers) in [
        ((4_096, 2_048), TAKEN),
        ((4_097, 0), TAKEN),
        ((0, 2_049), TAKEN),
        ((32_767, 28_673), TAKEN),
        ((32_767, -28_674), REFUSED),
        ((-32_768, 28_672), TAKEN),
        ((-32_768, -28_672), TAKEN),
        ((-32_768, -28_673), REFUSED),
        ((30_720, -30_720), TAKEN),
        ((30_720, -30_721), REFUSED),
        ((-32_768, -32_768), REFUSED),
    ] {
        for index in 0..8 {
            assert_eq!(accepted.numbers(one_pair(index, pair)), numbers, "{pair:?}");
        }
    }
}

#[test]
fn every_pair_of_61440_is_taken_and_every_one_of_61441_refused() {
    let accepted = Accepted::new();
    let limit = MAX_PAIR_SUM as i32;
    for (sum, count, numbers) in [(limit, 16_384, TAKEN), (limit + 1, 16_380, REFUSED)] {
        let pairs = pairs_of_sum(sum);
        assert_eq!(pairs.len(), count);
        for (index, pair) in (0..8).flat_map(|i| pairs.iter().map(move |pair| (i, *pair))) {
            assert_eq!(accepted.numbers(one_pair(index, pair)), numbers, "{index} {pair:?}");
        }
    }
}

#[test]
fn each_pair_is_tested_by_itself() {
    let accepted = Accepted::new();
    let largest = of_pairs([(30_720, -30_720); 8]);
    assert_eq!(accepted.numbers(largest), TAKEN);
    for index in 0..8 {
        for pair in [(30_720, -30_721), (-30_721, 30_720), (i16::MIN, i16::MIN)] {
            assert_eq!(accepted.numbers(with_pair(largest, index, pair)), REFUSED);
        }
    }
}

#[test]
fn any_coefficients_are_taken_by_the_sums_of_their_pairs() {
    let accepted = Accepted::new();
    let mut random = Random(9);
    let mut taken = 0;
    for _ in 0..20_000 {
        let coefficients = Coefficients(std::array::from_fn(|_| random.next() as i16));
        let sum = |(c0, c1): (i16, i16)| i32::from(c0).abs() + i32::from(c1).abs();
        let within = coefficients.pairs().into_iter().all(|pair| sum(pair) <= 61_440);
        assert_eq!(accepted.numbers(coefficients), if within { TAKEN } else { REFUSED });
        taken += u32::from(within);
    }
    assert!((5_000..20_000).contains(&taken), "{taken}");
}

/// What a frame's bytes play.
fn played(history: History, bytes: [u8; 8], coefficients: &Coefficients) -> [i16; 14] {
    let context = FrameContext {
        predictor_and_scale: bytes[0].into(),
        last_samples: [history.newest, history.older],
    };
    let mut out = [0; 14];
    play_bytes(&bytes, 16, coefficients, context, &mut out).unwrap();
    out
}

#[test]
fn the_worked_frame() {
    let coefficients = one_pair(0, (8_192, -4_096));
    let mut samples = [0; 14];
    samples[0] = 9;
    let frame = encode_frame(History::default(), &samples, &coefficients).unwrap();
    assert_eq!((frame.bytes, frame.passes), ([0x02, 0x28, 0x40, 0, 0, 0, 0, 0], 15));
    let mut wanted = [0; 14];
    wanted[0] = 8;
    assert_eq!(played(History::default(), frame.bytes, &coefficients), wanted);
}

#[test]
fn the_extreme_frame() {
    let coefficients = of_pairs([(-32_768, -28_672); 8]);
    let history = History { newest: -32_768, older: -32_768 };
    let mut samples = [0; 14];
    samples[0] = -32_768;
    let frame = encode_frame(history, &samples, &coefficients).unwrap();
    let bytes = [0x0c, 0x87, 0x87, 0x87, 0x87, 0x87, 0x87, 0x87];
    assert_eq!((frame.bytes, frame.passes), (bytes, 16));
    let out = played(history, bytes, &coefficients);
    assert_eq!(out[..2], [32_767, -32_768]);
    assert_eq!(frame.history, History { newest: out[13], older: out[12] });
}

#[test]
fn a_clip_in_any_cuts_has_the_same_image() {
    for clip in clips() {
        for coefficients in older_banks() {
            same_in_any_cuts(&Start { coefficients, ..start_of(&clip, 24) }, &clip);
        }
    }
}

#[test]
fn its_image_opens_and_plays_in_every_way_near_the_original() {
    let (mut all, mut bounded) = (0, 0);
    for clip in clips() {
        for coefficients in older_banks() {
            let start = Start { coefficients, ..start_of(&clip, 64) };
            let bytes = encode_from(&start, &clip);
            let image = Image::open(&bytes).unwrap();
            assert_eq!(image.head().coefficients, coefficients);
            assert_eq!((image.same(&image), image.sounds_same(&image)), (Ok(true), Ok(true)));
            played_alike(&bytes);
            all += clip.len();
            bounded += near_its_original(&bytes, &clip);
        }
    }
    assert!(bounded > 30_000 && bounded < all, "{bounded} of {all}");
}

#[test]
fn a_frame_takes_at_most_104_passes() {
    for clip in clips() {
        for coefficients in older_banks() {
            let mut encoder =
                Encoder::start(&Start { coefficients, ..start_of(&clip, 64) }).unwrap();
            let mut before = 0;
            for piece in clip.chunks_exact(14) {
                encoder.feed(piece).unwrap();
                let passes = encoder.state().passes;
                assert!((before + 8..=before + 104).contains(&passes));
                before = passes;
            }
        }
    }
}
