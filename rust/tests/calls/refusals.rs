//! Every refusal by its number, in the documents' sequence, with nothing written.

use crate::banks::one_pair;
use crate::clips::{encode, encode_from, start_of, tone, with_loop};
use doilycairn::*;

/// A refused call leaves a buffer as it was: runs it on a buffer that is not blank, and gives its refusal.
fn untouched<T, U>(len: usize, fill: T, call: impl FnOnce(&mut [T]) -> Result<U, Refusal>) -> u32
where
    T: Copy + PartialEq,
{
    let mut buffer = vec![fill; len];
    let why = call(&mut buffer).err().expect("the call is refused");
    assert!(buffer.iter().all(|item| *item == fill));
    why.number()
}

/// A clip of 20 samples in two blocks: its image has 100 bytes.
fn start() -> Start {
    Start { coefficients: Coefficients([0; 16]), ..start_of(&tone(20), 8) }
}

const SIZE: usize = 100;

/// The state and the image after some samples.
fn fed(count: usize) -> (EncoderState, Vec<u8>) {
    let mut encoder = Encoder::start(&start()).unwrap();
    encoder.feed(&tone(20)[..count]).unwrap();
    encoder.into_parts()
}

fn closed() -> EncoderState {
    let (state, mut image) = fed(20);
    state.close(&mut image).unwrap()
}

/// Pairs with |c0| + |c1| = 61,441 and above, each coefficient at its ends.
const OUTSIDE: [(i16, i16); 6] = [
    (32_767, 28_674),
    (28_674, -32_767),
    (-32_768, 28_673),
    (-28_673, -32_768),
    (32_767, -32_768),
    (-32_768, -32_768),
];

fn lowest(pair: usize) -> Coefficients {
    one_pair(pair, (i16::MIN, i16::MIN))
}

#[test]
fn number_1_measuring() {
    let state = |samples, records| Calculator { samples, records, history: [1; 28] };
    for invalid in
        [state(0, 1), state(13, 1), state(27, 2), state(MAX_SAMPLES + 1, 0), state(u32::MAX, 9)]
    {
        assert_eq!(untouched(64, 2.5, |store| invalid.process(&[1; 14], store)), 1);
        assert_eq!(untouched(64, 2.5, |store| invalid.process(&[], store)), 1);
        assert_eq!(untouched(64, 2.5, |store| invalid.finish(store)), 1);
        assert_eq!(invalid.finish(&mut []), Err(Refusal::InvalidState));
    }
    assert!(state(14, 1).process(&[], &mut [0.5; 2]).is_ok());
}

#[test]
fn a_refused_measuring_does_not_grow_its_store() {
    let state = |samples, records| Calculator { samples, records, history: [1; 28] };
    let refused = [(state(5, 1), 1), (state(28, 3), 1), (state(MAX_SAMPLES + 1, 0), 1)];
    for (given, number) in refused.into_iter().chain([(state(MAX_SAMPLES, 0), 2)]) {
        let mut measure = Measure::from_parts(given, vec![2.5; 3]);
        assert_eq!(measure.process(&[1; 500]).unwrap_err().number(), number);
        if number == 1 {
            assert_eq!(measure.coefficients(), Err(Refusal::InvalidState));
        }
        let (after, store) = measure.into_parts();
        assert_eq!((after, &store[..]), (given, &[2.5; 3][..]));
        assert!(store.capacity() < 10);
    }
    // Accepted, it grows to what the samples need.
    let mut measure = Measure::from_parts(state(5, 0), vec![2.5; 3]);
    measure.process(&[1; 24]).unwrap();
    assert_eq!(measure.into_parts().1.len(), store_size(29));
}

/// States that differ from a valid one by one field.
fn invalid_states() -> Vec<EncoderState> {
    let (state, _) = fed(15);
    let mut states = vec![
        EncoderState { fed: 21, ..state },
        EncoderState { total: 0, fed: 0, passes: 0, ..state },
        EncoderState { total: MAX_SAMPLES + 1, ..state },
        EncoderState { block: 0, ..state },
        EncoderState { block: 12, ..state },
        EncoderState { block: 65_544, ..state },
        EncoderState { rate: 0, ..state },
        EncoderState { closed: true, ..state },
        EncoderState { passes: 105, ..state },
        EncoderState { passes: 1, fed: 13, ..state },
        EncoderState { passes: 2 * 104 + 1, ..closed() },
    ];
    for index in 0..8 {
        let outside = OUTSIDE.map(|pair| one_pair(index, pair));
        states.extend(outside.map(|coefficients| EncoderState { coefficients, ..state }));
    }
    states
}

#[test]
fn number_1_encoding() {
    for state in invalid_states() {
        assert_eq!(untouched(SIZE, 0x5a, |image| state.feed(&[1; 3], image)), 1);
        assert_eq!(untouched(SIZE, 0x5a, |image| state.close(image)), 1);
        assert_eq!(state.feed(&[0; 100], &mut []), Err(Refusal::InvalidState));
    }
    let (state, _) = fed(15);
    let most = EncoderState { passes: 104, ..state };
    assert!(most.feed(&[], &mut [0; SIZE]).is_ok());
}

#[test]
fn number_2() {
    let state = |samples| Calculator { samples, records: 0, history: [0; 28] };
    for (samples, piece) in [(MAX_SAMPLES, 1), (MAX_SAMPLES - 1, 2), (MAX_SAMPLES - 13, 14)] {
        let piece = vec![9; piece];
        assert_eq!(untouched(4, 2.5, |store| state(samples).process(&piece, store)), 2);
        assert_eq!(state(samples).process(&piece, &mut []), Err(Refusal::TooManySamples));
        let mut measure = Measure::from_parts(state(samples), vec![]);
        assert_eq!(measure.process(&piece), Err(Refusal::TooManySamples));
        assert_eq!(measure.into_parts().1, []);
    }
    let mut last = Measure::from_parts(state(MAX_SAMPLES - 1), vec![]);
    assert_eq!(last.process(&[9]), Ok(()));
    assert_eq!(last.calculator().samples, MAX_SAMPLES);
    assert_eq!(last.into_parts().1.len(), 1 << 21);
}

#[test]
fn number_3() {
    for (samples, numbers) in [(1, 2), (14, 2), (15, 4), (28, 4), (29, 6)] {
        let piece = tone(samples);
        let fresh = Calculator::new();
        assert_eq!(untouched(numbers - 1, 2.5, |store| fresh.process(&piece, store)), 3);
        let measured = fresh.process(&piece, &mut vec![0.0; numbers]).unwrap();
        assert_eq!(untouched(numbers - 1, 2.5, |store| measured.finish(store)), 3);
        assert!(measured.finish(&mut vec![0.0; numbers]).is_ok());
    }
}

#[test]
fn numbers_4_to_8() {
    let good = start();
    let refused = |bad: Start| {
        let number = untouched(SIZE, 0x5a, |image| EncoderState::start(&bad, image));
        let own = Encoder::start(&bad).unwrap_err();
        assert_eq!(own.number(), number);
        number
    };
    for total in [0, MAX_SAMPLES + 1, u32::MAX] {
        assert_eq!(refused(Start { total, ..good }), 4);
    }
    assert_eq!(refused(Start { rate: 0, ..good }), 5);
    for block_size in [0, 7, 65_537, u32::MAX] {
        assert_eq!(refused(Start { block_size, ..good }), 6);
    }
    for index in 0..8 {
        for coefficients in OUTSIDE.map(|pair| one_pair(index, pair)) {
            assert_eq!(refused(Start { coefficients, ..good }), 7);
            let frame = encode_frame(History::default(), &[1; 14], &coefficients);
            assert_eq!(frame, Err(Refusal::CoefficientOutside));
        }
    }
    assert_eq!(good.image_size(), Some(SIZE));
    for room in 0..SIZE {
        assert_eq!(untouched(room, 0x5a, |image| EncoderState::start(&good, image)), 8);
    }
}

/// Loops that a clip of 20 samples cannot have.
const OUTSIDE_LOOPS: [(u32, u32); 9] = [
    (0, 0),
    (3, 3),
    (4, 3),
    (20, 20),
    (0, 21),
    (20, 21),
    (19, u32::MAX),
    (u32::MAX, 0),
    (u32::MAX, u32::MAX),
];

#[test]
fn number_23() {
    for outside in OUTSIDE_LOOPS {
        let bad = with_loop(start(), outside);
        for room in [0, SIZE, SIZE + 16] {
            assert_eq!(untouched(room, 0x5a, |image| EncoderState::start(&bad, image)), 23);
        }
        assert_eq!(Encoder::start(&bad).err(), Some(Refusal::LoopOutside));
    }
    for within in [(0, 1), (0, 20), (19, 20), (13, 14), (14, 15)] {
        assert!(Encoder::start(&with_loop(start(), within)).is_ok());
    }
}

#[test]
fn number_1_with_a_loop() {
    let mut encoder = Encoder::start(&with_loop(start(), (5, 17))).unwrap();
    encoder.feed(&tone(20)).unwrap();
    let state = encoder.state();
    for (start, end) in OUTSIDE_LOOPS {
        let looped = LoopState { start, end, present: true };
        let bad = EncoderState { looped, ..state };
        for room in [0, SIZE + 16] {
            assert_eq!(untouched(room, 0x5a, |image| bad.feed(&[], image)), 1);
            assert_eq!(untouched(room, 0x5a, |image| bad.close(image)), 1);
        }
        // Without a loop start and end are not looked at.
        let none = EncoderState { looped: LoopState { present: false, ..looped }, ..state };
        assert!(none.feed(&[], &mut [0; SIZE]).is_ok());
        assert!(none.close(&mut [0; SIZE]).is_ok());
    }
}

#[test]
fn number_8_with_a_loop() {
    let start = with_loop(start(), (5, 17));
    let (begun, mut image) = Encoder::start(&start).unwrap().into_parts();
    let full = begun.feed(&tone(20), &mut image).unwrap();
    let closed = full.close(&mut image).unwrap();
    for room in [0, 4, SIZE, SIZE + 15] {
        assert_eq!(untouched(room, 0x5a, |image| EncoderState::start(&start, image)), 8);
        for state in [begun, full, closed] {
            assert_eq!(untouched(room, 0x5a, |image| state.feed(&[1; 99], image)), 8);
            assert_eq!(untouched(room, 0x5a, |image| state.close(image)), 8);
        }
    }
    assert!(full.close(&mut [0; SIZE + 16]).is_ok());
}

#[test]
fn starting_tests_in_sequence() {
    let good = start();
    let coefficients = one_pair(3, (32_767, -28_674));
    let looped = Some(Loop { start: 0, end: 21 });
    let mut bad = Start { total: 0, rate: 0, block_size: 7, coefficients, looped, ..good };
    let number = |bad: &Start| EncoderState::start(bad, &mut [0; 9]).unwrap_err().number();
    assert_eq!(number(&bad), 4);
    bad.total = good.total;
    assert_eq!(number(&bad), 5);
    bad.rate = good.rate;
    assert_eq!(number(&bad), 6);
    bad.block_size = good.block_size;
    assert_eq!(number(&bad), 7);
    bad.coefficients = good.coefficients;
    assert_eq!(number(&bad), 23);
    bad.looped = Some(Loop { start: 0, end: 20 });
    assert_eq!(number(&bad), 8);
    bad.looped = None;
    assert_eq!(number(&bad), 8);
}

#[test]
fn number_8_feeding_and_closing() {
    let (begun, _) = fed(5);
    let (full, _) = fed(20);
    for state in [begun, full, closed()] {
        for room in [0, 4, SIZE - 1] {
            assert_eq!(untouched(room, 0x5a, |image| state.feed(&[1; 99], image)), 8);
            assert_eq!(untouched(room, 0x5a, |image| state.close(image)), 8);
        }
    }
}

#[test]
fn numbers_9_to_11() {
    let (begun, _) = fed(5);
    let (full, _) = fed(20);
    for piece in [0, 1, 99] {
        let piece = vec![1; piece];
        assert_eq!(untouched(SIZE, 0x5a, |image| closed().feed(&piece, image)), 9);
    }
    assert_eq!(untouched(SIZE, 0x5a, |image| closed().close(image)), 9);
    assert_eq!(untouched(SIZE, 0x5a, |image| begun.feed(&[1; 16], image)), 10);
    assert_eq!(untouched(SIZE, 0x5a, |image| full.feed(&[1; 1], image)), 10);
    assert_eq!(untouched(SIZE, 0x5a, |image| begun.close(image)), 11);
}

#[test]
fn number_12() {
    for (bytes, nibbles) in [(8, 0), (8, 17), (0, 1), (0, 0), (1, 3), (8, u32::MAX)] {
        let bytes = vec![0x11; bytes];
        let play =
            |out: &mut [i16]| play_bytes(&bytes, nibbles, &lowest(0), FrameContext::default(), out);
        assert_eq!(untouched(20, 0x5a5a, play), 12);
    }
}

#[test]
fn number_13() {
    for pair in 0..8 {
        let coefficients = lowest(pair);
        let play =
            |out: &mut [i16]| play_bytes(&[0; 8], 16, &coefficients, FrameContext::default(), out);
        assert_eq!(untouched(14, 0x5a5a, play), 13);
        assert_eq!(play(&mut []), Err(Refusal::LowestPair));
        let mut bytes = encode(&tone(50), 16);
        bytes[16 + 4 * pair..20 + 4 * pair].copy_from_slice(&[0x80, 0, 0x80, 0]);
        let image = Image::open(&bytes).unwrap();
        assert_eq!(untouched(28, 0x5a5a, |out| image.play_block(0, out)), 13);
        assert_eq!(untouched(50, 0x5a5a, |out| image.play_into(out)), 13);
        assert_eq!(image.play_into(&mut []), Err(Refusal::LowestPair));
        assert_eq!(image.play(), Err(Refusal::LowestPair));
        assert_eq!(image.samples().err(), Some(Refusal::LowestPair));
        for first in [0, 49, 50, u32::MAX] {
            assert_eq!(untouched(9, 0x5a5a, |out| image.play_from(first, out)), 13);
            assert_eq!(image.play_from(first, &mut []), Err(Refusal::LowestPair));
            assert_eq!(image.part(first..first), Err(Refusal::LowestPair));
        }
        for times in [0, 1, u32::MAX] {
            assert_eq!(untouched(9, 0x5a5a, |out| image.play_loop_into(times, out)), 13);
        }
        assert_eq!(image.same(&image), Err(Refusal::LowestPair));
        assert_eq!(image.sounds_same(&image), Err(Refusal::LowestPair));
        assert!(image.block(1).is_ok());
    }
}

#[test]
fn number_14() {
    let bytes = encode(&tone(50), 16);
    let image = Image::open(&bytes).unwrap();
    for room in 0..28 {
        assert_eq!(untouched(room, 0x5a5a, |out| image.play_block(0, out)), 14);
        let block = image.block(0).unwrap();
        assert_eq!(untouched(room, 0x5a5a, |out| block.play(out)), 14);
    }
    for room in 0..50 {
        assert_eq!(untouched(room, 0x5a5a, |out| image.play_into(out)), 14);
    }
    let (first, second) = (image.block(0).unwrap(), image.block(1).unwrap());
    let differing = Block { coefficients: lowest(0), ..second };
    for room in 0..first.bytes.len() + second.bytes.len() {
        assert_eq!(untouched(room, 0x5a, |out| join(&first, &second, out)), 14);
        assert_eq!(untouched(room, 0x5a, |out| join(&first, &differing, out)), 14);
    }
}

#[test]
fn numbers_15_20_21_22_and_17() {
    let bytes = encode(&tone(50), 16);
    assert_eq!(Image::open(&bytes[..55]).unwrap_err().number(), 15);
    for (place, number, block) in [(59, 20, 0), (63, 21, 0), (86, 21, 1), (81, 22, 1)] {
        let mut damaged = bytes.clone();
        damaged[place] ^= 1;
        let why = Image::open(&damaged).unwrap_err();
        assert_eq!((why.number(), why.block()), (number, Some(block)));
    }
    let image = Image::open(&bytes).unwrap();
    assert_eq!(image.head().blocks, 2);
    for k in [2, 3, u32::MAX] {
        assert_eq!(image.block(k), Err(Refusal::NoSuchBlock));
        assert_eq!(untouched(28, 0x5a5a, |out| image.play_block(k, out)), 17);
        assert_eq!(image.play_block(k, &mut []), Err(Refusal::NoSuchBlock));
    }
}

/// The loop has six samples; the needed ones are counted in 64 bits.
#[test]
fn number_14_with_a_loop() {
    let bytes = encode_from(&with_loop(start_of(&tone(50), 16), (25, 31)), &tone(50));
    let image = Image::open(&bytes).unwrap();
    for (times, room) in (1..5).flat_map(|times| (0..6 * times).map(move |room| (times, room))) {
        let play = |out: &mut [i16]| image.play_loop_into(times as u32, out);
        assert_eq!(untouched(room, 0x5a5a, play), 14);
    }
    for times in [1 << 31, u32::MAX / 6 + 1, u32::MAX / 3 + 1, u32::MAX] {
        assert_eq!(untouched(30, 0x5a5a, |out| image.play_loop_into(times, out)), 14);
    }
    assert_eq!(image.play_loop_into(0, &mut []), Ok(0));
}

#[test]
fn number_24() {
    let bytes = encode_from(&with_loop(start_of(&tone(50), 16), (25, 31)), &tone(50));
    for place in [8, 9, 14, 15] {
        let mut damaged = bytes.clone();
        damaged[56 + 2 * 16 + place] ^= 1;
        let why = Image::open(&damaged).unwrap_err();
        assert_eq!((why, why.number(), why.block()), (Refusal::BadLoop, 24, None));
    }
}

#[test]
fn number_18() {
    let bytes = encode(&tone(50), 16);
    let image = Image::open(&bytes).unwrap();
    let block = image.block(0).unwrap();
    for place in 0..16 {
        let mut coefficients = block.coefficients;
        coefficients.0[place] ^= 1;
        let other = Block { coefficients, ..block };
        assert_eq!(untouched(32, 0x5a, |out| join(&block, &other, out)), 18);
    }
}

#[test]
fn number_19() {
    let bytes = encode(&tone(50), 16);
    let image = Image::open(&bytes).unwrap();
    for first in [50, 51, 56, 1000, u32::MAX] {
        for room in [0, 1, 28, 200] {
            assert_eq!(untouched(room, 0x5a5a, |out| image.play_from(first, out)), 19);
        }
        for end in [0, 49, first, u32::MAX] {
            assert_eq!(image.part(first..end), Err(Refusal::NoSuchSample));
        }
    }
    assert_eq!(image.play_from(49, &mut []), Ok(Part { samples: 0, blocks: 0 }));
}

#[test]
fn bytes_after_the_image_are_never_touched() {
    let clip = tone(20);
    let mut buffer = vec![0x5a; SIZE + 50];
    let mut encoder = Encoder::start_in(&start(), &mut buffer[..]).unwrap();
    encoder.feed(&clip).unwrap();
    encoder.close().unwrap();
    assert_eq!(encoder.image().len(), SIZE);
    assert!(buffer[SIZE..].iter().all(|byte| *byte == 0x5a));
    assert_eq!(Image::open(&buffer).unwrap().head().total, 20);
}
