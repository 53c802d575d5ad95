//! Clips with a loop: the entry that closing writes for it, and playing it any number of times.

use crate::banks::one_pair;
use crate::clips::{encode_from, every_loop, noise, start_of, with_loop};
use doilycairn::*;

/// The bytes that hexadecimal digits say, in groups.
fn hex(digits: &str) -> Vec<u8> {
    let digits = digits.replace(' ', "");
    let byte = |i| u8::from_str_radix(&digits[i..i + 2], 16).unwrap();
    (0..digits.len()).step_by(2).map(byte).collect()
}

/// Where the entry of an image's loop stands.
fn entry_place(image: &[u8]) -> usize {
    56 + 16 * u32::from_be_bytes(image[52..56].try_into().unwrap()) as usize
}

/// The sixteen bytes of an image's loop.
fn entry_of(image: &[u8]) -> &[u8] {
    &image[entry_place(image)..][..16]
}

// ---- the worked table

/// The worked clip: a ramp of 20 samples, whose played difference is its nibble.
fn ramp() -> Vec<i16> {
    (0..20).map(|i| 1000 + 6 * i).collect()
}

fn ramp_start(block_size: u32) -> Start {
    Start {
        total: 20,
        rate: 32_000,
        block_size,
        gain: 7,
        coefficients: one_pair(0, (2048, 0)),
        history: History { newest: 1000, older: 990 },
        looped: None,
    }
}

/// The head of the worked clip, from the mark to the coefficients.
fn ramp_head(block_size: &str) -> String {
    format!("44535043 00000014 00007D00 {block_size} 0800 {:060} 0007", 0)
}

const BODIES: &str = "0006666666666666 07000000";

/// In blocks of 8: from where the bodies begin, the count of loops and the loop's entry.
fn in_blocks_of_8([first, second]: [&str; 2], loops: &str, entry: &str) -> Vec<u8> {
    let entries = format!(
        "{first} 00000010 0000 03E8 03DE 0000 {second} 00000008 0007 0436 0430 0000 {entry}"
    );
    hex(&format!("{} {loops} 00000002 {entries} {BODIES}", ramp_head("00000008")))
}

/// In one block of 16.
fn in_a_block_of_16(offset: &str, loops: &str, entry: &str) -> Vec<u8> {
    let entries = format!("{offset} 00000018 0000 03E8 03DE 0000 {entry}");
    hex(&format!("{} {loops} 00000001 {entries} {BODIES}", ramp_head("00000010")))
}

#[test]
fn the_worked_table() {
    let plain = in_blocks_of_8(["00000058", "00000060"], "0000", "");
    assert_eq!((plain.len(), encode_from(&ramp_start(8), &ramp())), (100, plain));
    for (looped, entry) in [
        ((5, 17), "00000005 00000011 0000 0400 03FA 0000"),
        ((0, 20), "00000000 00000014 0000 03E8 03DE 0000"),
        ((1, 3), "00000001 00000003 0000 03E8 03E8 0000"),
        ((14, 20), "0000000E 00000014 0007 0436 0430 0000"),
    ] {
        let image = in_blocks_of_8(["00000068", "00000070"], "0001", entry);
        assert_eq!((image.len(), entry_of(&image)), (116, &hex(entry)[..]));
        assert_eq!(encode_from(&with_loop(ramp_start(8), looped), &ramp()), image);
    }
    let entry = "00000013 00000014 0007 0436 0436 0000";
    let image = in_a_block_of_16("00000058", "0001", entry);
    assert_eq!(
        (image.len(), encode_from(&with_loop(ramp_start(16), (19, 20)), &ramp())),
        (100, image)
    );
}

#[test]
fn the_worked_samples() {
    let mut bytes = encode_from(&with_loop(ramp_start(8), (5, 17)), &ramp());
    let nine = [1030, 1036, 1042, 1048, 1054, 1060, 1066, 1072, 1078];
    let once = [&nine[..], &[1078; 3]].concat();
    assert_eq!(Image::open(&bytes).unwrap().play_loop(1), Ok(once));
    // With stored history 0, 0 it plays from that, and block 1 from its own entry.
    bytes[98..102].fill(0);
    let nine = [6, 12, 18, 24, 30, 36, 42, 48, 54];
    let once = [&nine[..], &[1078; 3]].concat();
    assert_eq!(Image::open(&bytes).unwrap().play_loop(2), Ok(once.repeat(2)));
}

#[test]
fn the_worked_sizes() {
    assert_eq!(loop_image_size(1, 8), Some(90));
    assert_eq!(loop_image_size(20, 8), Some(116));
    assert_eq!(loop_image_size(MAX_SAMPLES, 8), Some(56 + 16 * ((1 << 20) + 1) + 8 * (1 << 20)));
    for total in (0..100).chain([MAX_SAMPLES - 1, MAX_SAMPLES, MAX_SAMPLES + 1, u32::MAX]) {
        for block_size in (0..50).chain([65_535, 65_536, 65_537, u32::MAX]) {
            let more = image_size(total, block_size).map(|size| size + 16);
            assert_eq!(loop_image_size(total, block_size), more);
        }
    }
    let start = with_loop(ramp_start(8), (5, 17));
    let encoder = Encoder::start(&start).unwrap();
    assert_eq!((start.image_size(), encoder.state().image_size()), (Some(116), Some(116)));
    assert_eq!(encoder.image().len(), 116);
}

// ---- every loop

/// Two and a half frames.
const TOTAL: u32 = 35;

fn clip() -> Vec<i16> {
    noise(TOTAL as usize, 9000, 12)
}

/// Starts of the clip in blocks of one and of two frames, with each of its loops.
fn starts() -> impl Iterator<Item = (Start, Loop)> {
    [8, 16].into_iter().flat_map(|block_size| {
        let start = start_of(&clip(), block_size);
        every_loop(TOTAL)
            .map(move |looped| with_loop(start, looped))
            .map(|start| (start, start.looped.unwrap()))
    })
}

/// Head and offsets are there from starting on; the mark and the loop's entry are zeros.
fn is_open_ended(image: &[u8]) {
    assert_eq!(
        (&image[..4], &image[50..52], entry_of(image)),
        (&[0; 4][..], &[0, 1][..], &[0; 16][..])
    );
}

/// The state and the image of the clip, fed in two pieces.
fn fed_in_two(start: &Start, cut: usize) -> (EncoderState, Vec<u8>) {
    let mut encoder = Encoder::start(start).unwrap();
    is_open_ended(encoder.image());
    for piece in [&clip()[..cut], &clip()[cut..]] {
        encoder.feed(piece).unwrap();
        is_open_ended(encoder.image());
    }
    encoder.close().unwrap();
    encoder.into_parts()
}

#[test]
fn one_image_however_it_is_cut() {
    for (start, looped) in starts() {
        let one = fed_in_two(&start, 0);
        assert_eq!(Some(one.1.len()), start.image_size());
        for cut in 1..=TOTAL as usize {
            assert_eq!(fed_in_two(&start, cut), one, "{looped:?} {cut}");
        }
    }
}

/// The context that the documents name, of what is played.
fn context(start: &Start, image: &[u8], played: &[i16], s: usize) -> FrameContext {
    let History { newest, older } = start.history;
    let last_samples = match s {
        0 => [newest, older],
        1 => [played[0], newest],
        _ => [played[s - 1], played[s - 2]],
    };
    let header = image[entry_place(image) + 16 + s / 14 * 8];
    FrameContext { predictor_and_scale: header.into(), last_samples }
}

/// The bytes of a loop's entry.
fn entry_bytes(looped: Loop, context: FrameContext) -> Vec<u8> {
    let mut bytes = [looped.start, looped.end].map(u32::to_be_bytes).concat();
    bytes.extend(context.predictor_and_scale.to_be_bytes());
    bytes.extend(context.last_samples.map(i16::to_be_bytes).concat());
    [&bytes[..], &[0, 0]].concat()
}

#[test]
fn closing_writes_the_loop_and_its_context() {
    for (start, looped) in starts() {
        let (state, bytes) = fed_in_two(&start, 20);
        let image = Image::open(&bytes).unwrap();
        let played = image.play().unwrap();
        let context = context(&start, &bytes, &played, looped.start as usize);
        assert_eq!(entry_of(&bytes), entry_bytes(looped, context), "{looped:?}");
        assert_eq!((image.looped(), image.loop_context()), (Some(looped), Some(context)));
        assert_eq!((state.looped.looped(), state.loop_context), (Some(looped), context));
        // At the edge of a block it is that block's own.
        let per_block = start.block_size / 8 * 14;
        if looped.start.is_multiple_of(per_block) {
            assert_eq!(image.block(looped.start / per_block).unwrap().context, context);
        }
    }
}

#[test]
fn the_context_is_known_once_its_frame_is_encoded() {
    for (start, looped) in starts() {
        let known = fed_in_two(&start, 0).0.loop_context;
        let mut encoder = Encoder::start(&start).unwrap();
        for (fed, sample) in (0..TOTAL).zip(clip()) {
            let is_encoded = looped.start / 14 < fed / 14;
            let expected = if is_encoded { known } else { FrameContext::default() };
            assert_eq!(encoder.state().loop_context, expected, "{looped:?} {fed}");
            assert_eq!(encoder.state().looped.looped(), Some(looped));
            encoder.feed(&[sample]).unwrap();
        }
        encoder.close().unwrap();
        assert_eq!(encoder.state().loop_context, known);
    }
}

/// Plays the loop so many times: the output after it is kept.
fn played_into(image: &Image, times: u32, length: usize) -> Vec<i16> {
    let mut out = vec![0x5a5a; length + 2];
    assert_eq!(image.play_loop_into(times, &mut out), Ok(length as u64));
    assert_eq!(out.split_off(length), [0x5a5a; 2]);
    out
}

#[test]
fn the_loop_over_and_over_is_the_clips_samples_over_and_over() {
    for (start, looped) in starts() {
        let bytes = encode_from(&start, &clip());
        let image = Image::open(&bytes).unwrap();
        let once = &image.play().unwrap()[looped.start as usize..looped.end as usize];
        for times in 0..4 {
            let turns = once.repeat(times);
            assert_eq!(played_into(&image, times as u32, turns.len()), turns, "{looped:?}");
            assert_eq!(image.play_loop(times as u32), Ok(turns));
        }
        assert_eq!(image.part(looped.start..looped.end).unwrap(), once);
    }
}

/// An image without its loop: bytes 50 and 51 zero, no entry of the loop, and offsets as they were.
fn without_loop(image: &[u8]) -> Vec<u8> {
    let (at, mut bytes) = (entry_place(image), image.to_vec());
    bytes.drain(at..at + 16);
    bytes[51] = 0;
    for entry in bytes[56..at].chunks_mut(16) {
        let offset = u32::from_be_bytes(entry[..4].try_into().unwrap()) - 16;
        entry[..4].copy_from_slice(&offset.to_be_bytes());
    }
    bytes
}

#[test]
fn a_loop_alters_nothing_else() {
    for (start, looped) in starts() {
        let (with, bytes) = fed_in_two(&start, 9);
        let (without, plain) = {
            let mut encoder = Encoder::start(&Start { looped: None, ..start }).unwrap();
            encoder.feed(&clip()).unwrap();
            encoder.close().unwrap();
            encoder.into_parts()
        };
        assert_eq!(without_loop(&bytes), plain, "{looped:?}");
        let (looped, loop_context) = (LoopState::default(), FrameContext::default());
        assert_eq!(EncoderState { looped, loop_context, ..with }, without);
        assert_eq!((same(&bytes, &plain), sounds_same(&bytes, &plain)), (Ok(false), Ok(true)));
        let image = Image::open(&plain).unwrap();
        assert_eq!((image.looped(), image.loop_context()), (None, None));
        assert_eq!(image.play_loop(9), Ok(vec![]));
        assert_eq!(played_into(&image, u32::MAX, 0), []);
    }
}

// ---- undo

/// Feeds the clip up to a place, then something else to the end, and closes; then goes on from the place.
fn taken_back(start: &Start, at: usize) -> Vec<u8> {
    let other = noise(TOTAL as usize, 20_000, 3);
    let mut encoder = Encoder::start(start).unwrap();
    encoder.feed(&clip()[..at]).unwrap();
    let older = encoder.state();
    encoder.feed(&other[at..]).unwrap();
    encoder.close().unwrap();
    let left = entry_of(encoder.image()).to_vec();
    let mut encoder = Encoder::from_parts(older, encoder.into_parts().1);
    encoder.feed(&clip()[at..]).unwrap();
    // As the mark does, what the later closing wrote stays until closing.
    assert_eq!(entry_of(encoder.image()), left);
    encoder.close().unwrap();
    encoder.into_parts().1
}

#[test]
fn an_older_state_closes_to_the_same_image_wherever_the_loop_starts() {
    for (start, looped) in starts().filter(|(_, looped)| looped.end == TOTAL) {
        let image = encode_from(&start, &clip());
        for at in 0..=TOTAL as usize {
            assert_eq!(taken_back(&start, at), image, "{looped:?} {at}");
        }
    }
}

#[test]
fn bytes_after_the_image_are_never_touched() {
    for (start, looped) in starts().step_by(13) {
        let image = encode_from(&start, &clip());
        let mut buffer = vec![0x5a; image.len() + 33];
        let mut encoder = Encoder::start_in(&start, &mut buffer[..]).unwrap();
        encoder.feed(&clip()).unwrap();
        encoder.close().unwrap();
        assert_eq!(encoder.image(), image);
        assert!(buffer[image.len()..].iter().all(|byte| *byte == 0x5a));
        assert_eq!(Image::open(&buffer).unwrap().looped(), Some(looped));
    }
}
