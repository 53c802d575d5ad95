//! .dsp files: what export writes and import makes of it, and that the one gives back what the other took.

use crate::banks::one_pair;
use crate::clips::{Random, clips, encode_from, every_loop, noise, start_of, tone, with_loop};
use crate::dsp_reading::{bodies, image, played};
use crate::made::Made;
use doilycairn::*;

/// The bytes that hexadecimal digits say, in groups.
fn hex(digits: &str) -> Vec<u8> {
    let digits = digits.replace(' ', "");
    let byte = |i| u8::from_str_radix(&digits[i..i + 2], 16).unwrap();
    (0..digits.len()).step_by(2).map(byte).collect()
}

/// The file of an image, exported with room to spare: that room is kept.
pub fn exported(image: &[u8]) -> Vec<u8> {
    let image = Image::open(image).unwrap();
    let file = image.to_dsp().unwrap();
    let mut room = vec![0x5a; file.len() + 33];
    assert_eq!(image.to_dsp_into(&mut room), Ok(file.len()));
    assert!(room[..file.len()] == file && room[file.len()..].iter().all(|byte| *byte == 0x5a));
    assert_eq!(dsp_size(image.head().total), Some(file.len()));
    file
}

/// The image of a file, imported with room to spare: that room is kept.
pub fn imported(file: &[u8], block_size: u32) -> Vec<u8> {
    let image = from_dsp(file, block_size).unwrap();
    let mut room = vec![0x5a; image.len() + 33];
    assert_eq!(from_dsp_into(file, block_size, &mut room), Ok(image.len()));
    assert!(room[..image.len()] == image && room[image.len()..].iter().all(|byte| *byte == 0x5a));
    assert_eq!(dsp_image_size(file, block_size), Ok(image.len()));
    image
}

// ---- worked files

/// The worked clip: a ramp of 20 samples.
fn ramp(block_size: u32, looped: Option<(u32, u32)>) -> Vec<u8> {
    let start = Start {
        total: 20,
        rate: 32_000,
        block_size,
        gain: 7,
        coefficients: one_pair(0, (2048, 0)),
        history: History { newest: 1000, older: 990 },
        looped: None,
    };
    let start = looped.map_or(start, |looped| with_loop(start, looped));
    encode_from(&start, &(0..20).map(|i| 1000 + 6 * i).collect::<Vec<i16>>())
}

/// Its file, from its loop's flag and addresses, and the loop's context.
fn ramp_file(flag_and_addresses: &str, loop_context: &str) -> Vec<u8> {
    let head = format!("00000014 00000018 00007D00 {flag_and_addresses} 00000002");
    let clip = format!("0800 {:060} 0007 0000 03E8 03DE {loop_context} {:044}", 0, 0);
    hex(&format!("{head} {clip} 0006666666666666 07000000"))
}

#[test]
fn the_worked_file() {
    let file = ramp_file("0001 0000 00000007 00000014", "0000 0400 03FA");
    let plain = ramp_file("0000 0000 00000000 00000000", "0000 0000 0000");
    assert_eq!((file.len(), plain.len()), (108, 108));
    for block_size in [8, 16] {
        assert_eq!(exported(&ramp(block_size, Some((5, 17)))), file);
        assert_eq!(exported(&ramp(block_size, None)), plain);
        assert_eq!(imported(&file, block_size), ramp(block_size, Some((5, 17))));
        assert_eq!(imported(&plain, block_size), ramp(block_size, None));
    }
}

#[test]
fn the_sample_9_as_a_file() {
    let start = Start {
        total: 1,
        gain: 0,
        coefficients: Coefficients::default(),
        history: History::default(),
        ..start_of(&[9], 8)
    };
    let file = |flag_and_addresses: &str, loop_header: &str| {
        let head = format!("00000001 00000003 00007D00 {flag_and_addresses} 00000002");
        hex(&format!("{head} {:064} 0000 0001 00000000 {loop_header} {:052} 0140", 0, 0))
    };
    let plain = file("0000 0000 00000000 00000000", "0000");
    let looped = file("0001 0000 00000002 00000002", "0001");
    assert_eq!((plain.len(), exported(&encode_from(&start, &[9]))), (98, plain));
    assert_eq!(exported(&encode_from(&with_loop(start, (0, 1)), &[9])), looped);
}

#[test]
fn sizes() {
    for (total, size) in [(1, 98), (2, 98), (3, 99), (14, 104), (15, 106), (20, 108)] {
        assert_eq!(dsp_size(total), Some(size));
    }
    assert_eq!(dsp_size(MAX_SAMPLES), Some(8_388_704));
    for total in [0, MAX_SAMPLES + 1, u32::MAX] {
        assert_eq!(dsp_size(total), None);
    }
}

/// All that a file has: 8 MB, in one block and in a million.
#[test]
fn the_longest_clip() {
    let made = Made::silent(MAX_SAMPLES, 65_536).but(|made| {
        made.looped = Some((MAX_SAMPLES - 1, MAX_SAMPLES, [5, 6]));
    });
    let file = exported(&made.bytes());
    assert_eq!((file.len(), &file[4..8]), (8_388_704, &hex("01000000")[..]));
    assert_eq!(file[16..24], hex("00FFFFFF 00FFFFFF"));
    assert!(imported(&file, 65_536) == made.bytes());
    assert!(exported(&imported(&file, 8)) == file);
}

// ---- there and back

const BLOCK_SIZES: [u32; 7] = [8, 15, 16, 24, 64, 4096, 65_536];

#[test]
fn an_image_comes_back_byte_for_byte() {
    for clip in clips() {
        let start = start_of(&clip, 40);
        // A file does not know the blocks that it came from.
        let file = exported(&encode_from(&start, &clip));
        for block_size in BLOCK_SIZES {
            let bytes = encode_from(&Start { block_size, ..start }, &clip);
            assert_eq!(exported(&bytes), file);
            assert_eq!(imported(&file, block_size), bytes);
        }
    }
}

#[test]
fn every_loop_comes_back() {
    let clip = noise(35, 9000, 12);
    for looped in every_loop(35) {
        for block_size in [8, 16, 64] {
            let bytes = encode_from(&with_loop(start_of(&clip, block_size), looped), &clip);
            let file = exported(&bytes);
            let addresses = [looped.0, looped.1 - 1].map(sample_to_address);
            let addresses = addresses.map(|address| (address as u32).to_be_bytes()).concat();
            assert_eq!((&file[12..14], &file[16..24]), (&[0, 1][..], &addresses[..]));
            assert_eq!(imported(&file, block_size), bytes, "{looped:?}");
        }
    }
}

#[test]
fn a_file_comes_back_whatever_the_block_size() {
    let clip = noise(200, 9000, 3);
    for looped in [None, Some((0, 1)), Some((71, 150)), Some((199, 200))] {
        let start = start_of(&clip, 40);
        let start = looped.map_or(start, |looped| with_loop(start, looped));
        let file = exported(&encode_from(&start, &clip));
        for block_size in (8..200).chain(BLOCK_SIZES) {
            let bytes = imported(&file, block_size);
            assert_eq!(exported(&bytes), file);
            assert_eq!(bytes, image(&file, block_size));
            assert_eq!(bytes, encode_from(&Start { block_size, ..start }, &clip));
        }
    }
}

#[test]
fn bytes_past_the_last_body_are_dropped() {
    let clip = tone(50);
    let bytes = encode_from(&start_of(&clip, 16), &clip);
    let file = exported(&bytes);
    for more in [&[0][..], &[1; 7], &file] {
        assert_eq!(imported(&[&file, more].concat(), 16), bytes);
        assert_eq!(exported(&[&bytes, more].concat()), file);
    }
}

// ---- files that no encoder writes

/// A clip of random frames whose blocks go on from each other, so that it can be exported.
fn random_clip(random: &mut Random, total: u32, block: u32) -> Made {
    let mut made = Made::silent(total, block);
    let mut sample = || random.next() as i16;
    made.coefficients = std::array::from_fn(|_| sample().max(-32_767));
    made.histories[0] = [sample(), sample()];
    (made.gain, made.rate) = (sample() as u16, 1 + u32::from(sample() as u16));
    made.frames.iter_mut().for_each(|frame| *frame = std::array::from_fn(|_| sample() as u8));
    for k in 1..made.histories.len() {
        let before = made.bytes();
        let image = Image::open(&before).unwrap();
        let mut out = vec![0; total as usize];
        made.histories[k] = image.play_block(k as u32 - 1, &mut out).unwrap().context.last_samples;
    }
    let start = random.next() % total;
    let end = start + 1 + random.next() % (total - start);
    let history = [random.next() as i16, random.next() as i16];
    made.looped = random.next().is_multiple_of(2).then_some((start, end, history));
    made
}

#[test]
fn any_frames_come_back_and_play_as_one_block() {
    let mut random = Random(6);
    for turn in 0..400 {
        let (total, block) = (1 + random.next() % 150, 8 * (1 + random.next() % 5));
        let made = random_clip(&mut random, total, block);
        let file = exported(&made.bytes());
        assert_eq!(imported(&file, block), made.bytes(), "{turn}: {made:?}");
        let nibbles = u64::from(total + 2 * total.div_ceil(14));
        assert_eq!(file[4..8], (nibbles as u32).to_be_bytes());
        let size = 8 + random.next() % 60;
        let bytes = imported(&file, size);
        assert_eq!(bytes, image(&file, size));
        assert_eq!(Image::open(&bytes).unwrap().play(), Ok(played(&file, nibbles).0));
        assert_eq!(exported(&bytes), file);
    }
}

/// The loop's history is copied, whatever is played before its start.
#[test]
fn the_loops_history_is_kept() {
    for history in [[0, 0], [i16::MIN, i16::MAX], [-1, 1]] {
        let made = Made::silent(40, 16).but(|made| made.looped = Some((20, 40, history)));
        let file = exported(&made.bytes());
        assert_eq!(file[70..74], history.map(i16::to_be_bytes).concat());
        let bytes = imported(&file, 16);
        let image = Image::open(&bytes).unwrap();
        assert_eq!((image.loop_context().unwrap().last_samples, &bytes), (history, &made.bytes()));
    }
}

/// A block's body and its entry's header have a top bit that playing does not use; a file keeps it, and the spare nibble.
#[test]
fn bits_that_are_not_played_are_kept() {
    let mut made = Made::silent(29, 8);
    made.frames = vec![[0x80, 0, 0, 0, 0, 0, 0, 0], [0xf0; 8], [0x90, 0x0f, 0, 0, 0, 0, 0, 0]];
    made.coefficients = [0; 16];
    let file = {
        // What each block leaves is the history of the next.
        for k in 1..3 {
            let before = made.bytes();
            let image = Image::open(&before).unwrap();
            let played = image.play_block(k - 1, &mut [0; 14]).unwrap();
            made.histories[k as usize] = played.context.last_samples;
        }
        exported(&made.bytes())
    };
    assert_eq!(bodies(&file), &made.bytes()[56 + 3 * 16..]);
    assert_eq!((file[62..64].to_vec(), file[113]), (vec![0, 0x80], 0x0f));
    assert_eq!(imported(&file, 8), made.bytes());
}
