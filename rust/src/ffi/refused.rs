//! What stands in a refused answer beside its code, as include/doilycairn.h says.

use super::*;

const COEFFICIENTS: Coefficients = Coefficients([0; 16]);
const HISTORY: History = History { newest: 3, older: -4 };
const NO_HISTORY: History = History { newest: 0, older: 0 };

fn started() -> (EncoderState, Vec<u8>) {
    let clip = Start {
        total: 20,
        rate: 1,
        block_size: 8,
        gain: 5,
        coefficients: COEFFICIENTS,
        history: HISTORY,
        looped: None,
    };
    let mut image = vec![0; image_size(20, 8) as usize];
    let encoding = start(&clip, &mut image);
    assert_eq!(encoding.code, 0);
    (encoding.encoder, image)
}

#[test]
fn measuring_gives_back_the_state() {
    let given = Calculator { samples: 5, records: 1, history: [9; 28] };
    let processed = process(given, &[1; 3], &mut [0.0; 2]);
    assert_eq!((processed.code, processed.calculator), (1, given));
    let finished = finish(given, &mut [0.0; 2]);
    assert_eq!((finished.code, finished.calculator), (1, given));
    assert_eq!(finished.coefficients, COEFFICIENTS);
}

#[test]
fn a_frame_is_zeros_and_the_history_given() {
    let mut coefficients = COEFFICIENTS;
    coefficients.0[14..].copy_from_slice(&[28_674, -32_767]);
    let frame = encode_frame(HISTORY, &[7; 14], &coefficients);
    assert_eq!((frame.code, frame.bytes, frame.passes, frame.history), (7, [0; 8], 0, HISTORY));
}

#[test]
fn a_start_gives_the_state_of_no_clip() {
    let (state, mut image) = started();
    let clip = Start {
        total: 20,
        rate: 0,
        block_size: 8,
        gain: 5,
        coefficients: state.coefficients,
        history: HISTORY,
        looped: None,
    };
    let encoding = start(&clip, &mut image);
    let none = EncoderState {
        total: 0,
        rate: 0,
        block: 0,
        gain: 0,
        coefficients: COEFFICIENTS,
        fed: 0,
        history: NO_HISTORY,
        frame: [0; 14],
        passes: 0,
        closed: false,
        looped: LoopState::default(),
        loop_context: FrameContext::default(),
    };
    assert_eq!((encoding.code, encoding.encoder), (5, none));
    let looped = Some(Loop { start: 3, end: 3 });
    let encoding = start(&Start { rate: 1, looped, ..clip }, &mut image);
    assert_eq!((encoding.code, encoding.encoder), (23, none));
    assert_eq!(feed(none, &[], &mut image).code, 1);
    assert_eq!(close(none, &mut image).code, 1);
}

#[test]
fn encoding_gives_back_the_state() {
    let (state, mut image) = started();
    let fed = feed(state, &[100; 17], &mut image).encoder;
    let encoding = feed(fed, &[1; 4], &mut image);
    assert_eq!((encoding.code, encoding.encoder), (10, fed));
    let encoding = close(fed, &mut image);
    assert_eq!((encoding.code, encoding.encoder), (11, fed));
}

#[test]
fn reading_gives_zeros() {
    let (state, mut image) = started();
    let opening = open(&image);
    let none = Head { total: 0, rate: 0, block: 0, gain: 0, coefficients: COEFFICIENTS, blocks: 0 };
    assert_eq!((opening.code, opening.entry, opening.head), (15, 0, none));
    assert_eq!(opening.looped, LoopState::default());
    assert_eq!(opening.loop_context, FrameContext::default());
    let fed = feed(state, &[100; 20], &mut image).encoder;
    assert_eq!(close(fed, &mut image).code, 0);
    let body = block_body(&image, 2);
    assert_eq!((body.code, body.entry), (17, 0));
    assert_eq!((body.offset, body.bytes, body.nibbles), (0, 0, 0));
    assert_eq!(body.context, FrameContext::default());
    for playback in [play(&image, 0, &mut [0; 13]), play_all(&image, &mut [0; 19])] {
        assert_eq!((playback.code, playback.entry, playback.samples), (14, 0, 0));
        assert_eq!(playback.context, FrameContext::default());
    }
    let part = play_from(&image, 20, &mut [0; 9]);
    assert_eq!((part.code, part.entry, part.samples, part.blocks), (19, 0, 0, 0));
    let turns = play_loop(&[], 3, &mut [0; 9]);
    assert_eq!((turns.code, turns.entry, turns.samples), (15, 0, 0));
    let written = export_dsp(&image, &mut [0; 107]);
    assert_eq!((written.code, written.entry, written.bytes), (14, 0, 0));
    for comparison in [same(&image, &[]), sounds_same(&image, &[])] {
        assert_eq!((comparison.code, comparison.entry, comparison.same), (15, 0, false));
    }
}

#[test]
fn importing_gives_no_bytes() {
    let mut file = [0; 98];
    file[3] = 1; // one sample, at rate 0
    for (code, file) in [(25, &file[..97]), (4, &[0; 96]), (5, &file)] {
        for written in [dsp_image_size(file, 8), import_dsp(file, 8, &mut [0; 74])] {
            assert_eq!((written.code, written.entry, written.bytes), (code, 0, 0));
        }
    }
}

#[test]
fn playing_bytes_gives_back_the_context() {
    let context = FrameContext { predictor_and_scale: 0x23, last_samples: [1, 2] };
    let lowest = Coefficients([i16::MIN; 16]);
    for (code, nibbles, coefficients) in
        [(12, 17, &COEFFICIENTS), (13, 16, &lowest), (14, 16, &COEFFICIENTS)]
    {
        let playback = play_bytes(&[0; 8], nibbles, coefficients, context, &mut [0; 13]);
        assert_eq!((playback.code, playback.entry), (code, 0));
        assert_eq!((playback.samples, playback.context), (0, context));
    }
}

#[test]
fn joining_gives_no_length() {
    let block = Block {
        bytes: &[1; 8],
        nibbles: 16,
        coefficients: COEFFICIENTS,
        context: FrameContext::default(),
    };
    let joining = join(&block, &block, &mut [0; 15]);
    assert_eq!((joining.code, joining.nibbles), (14, 0));
}
