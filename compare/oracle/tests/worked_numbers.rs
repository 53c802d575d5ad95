//! The worked numbers of the scope paper, and two frames within document 02's limit, run against the Rust.
//!
//! The image sizes S and the image's head have no counterpart in the Rust (it knows no image), so
//! they are left to the port. Of the last example the block is compared: body, length, context.

use oracle::pairs::with_pair;
use oracle::{
    FrameContext, address_to_sample, decode, encode, encode_frame, sample_to_address, unclamped,
};

const ZEROS: [i16; 16] = [0; 16];

#[test]
fn address_to_sample_as_listed() {
    let pairs = [(0, 0), (1, 0), (2, 0), (15, 13), (16, 14), (17, 14), (18, 14), (19, 15)];
    for (address, sample) in pairs {
        assert_eq!(address_to_sample(address), sample, "address {address}");
    }
}

#[test]
fn sample_to_address_as_listed() {
    for (sample, address) in [(0, 2), (13, 15), (14, 18), (28, 34)] {
        assert_eq!(sample_to_address(sample), address, "sample {sample}");
    }
}

#[test]
fn header_9c_is_predictor_1_scale_4096() {
    let context = FrameContext { predictor_and_scale: 0x9c, last_samples: [0, 0] };
    assert_eq!((context.predictor(), context.scale()), (1, 4096));
}

#[test]
fn header_9c_is_played_with_pair_1_and_scale_4096() {
    let mut coefficients = [-1; 16];
    coefficients[2..4].copy_from_slice(&[2048, 0]);
    let context = FrameContext { predictor_and_scale: 0x9c, last_samples: [100, 0] };
    let (samples, _) = decode(&[0x9c, 0x1f], 4, &coefficients, context);
    assert_eq!(samples, [100 + 4096, 100]);
}

#[test]
fn nibbles_7_8_15_are_7_minus_8_minus_1() {
    let (samples, _) = decode(&[0x00, 0x78, 0xf0], 5, &ZEROS, FrameContext::new());
    assert_eq!(samples, [7, -8, -1]);
}

#[test]
fn quantiser_rounds_halves_towards_zero() {
    for (distance, value) in [(1024, 0), (1025, 1), (-1024, 0), (-1025, -1)] {
        assert_eq!(unclamped(0, distance), value, "D = {distance}");
    }
}

#[test]
fn quantiser_rounds_to_24_bits_first() {
    assert_eq!(unclamped(12, 20_971_521), 2);
}

/// The same D in a real frame: 2048 × 10,240 − 1 × −1, with full-scale samples that ask for p = 12.
#[test]
fn encoder_rounds_to_24_bits_first() {
    let coefficients = std::array::from_fn(|place| (place % 2 == 0) as i16);
    let mut samples = [i16::MIN; 14];
    samples[0] = 10_240;
    samples[2] = i16::MAX;
    let (bytes, ..) = encode_frame([-1, 0], &samples, &coefficients);
    assert_eq!((bytes[0], bytes[1] >> 4), (0x0c, 2));
}

/// Encodes one sample with zeros all round and plays it.
fn one_sample(sample: i16) -> (Vec<u8>, u32, Vec<i16>) {
    let (bytes, passes, history) = encode_frame([0, 0], &[sample], &ZEROS);
    let context = FrameContext { predictor_and_scale: bytes[0].into(), last_samples: [0, 0] };
    let (played, end) = decode(&bytes, 3, &ZEROS, context);
    assert_eq!((history, end.last_samples), ([played[0], 0], [played[0], 0]));
    (bytes, passes, played)
}

#[test]
fn one_sample_frames_as_listed() {
    assert_eq!(one_sample(7), (vec![0x00, 0x70], 8, vec![7]));
    assert_eq!(one_sample(8), (vec![0x00, 0x70], 8, vec![7]));
    assert_eq!(one_sample(-9), (vec![0x00, 0x80], 8, vec![-8]));
    assert_eq!(one_sample(9), (vec![0x01, 0x40], 16, vec![8]));
}

/// A full frame that begins with one sample, from a history, and what it plays.
fn one_and_zeros(history: [i16; 2], sample: i16, bank: &[i16; 16]) -> (Vec<u8>, u32, Vec<i16>) {
    let mut samples = [0; 14];
    samples[0] = sample;
    let (bytes, passes, _) = encode_frame(history, &samples, bank);
    let context = FrameContext { predictor_and_scale: bytes[0].into(), last_samples: history };
    let (played, _) = decode(&bytes, 16, bank, context);
    (bytes, passes, played)
}

/// A hand-made pair before seven zero pairs.
#[test]
fn a_frame_with_a_hand_made_pair() {
    let bank = with_pair([0; 16], 0, [8_192, -4_096]);
    let mut played = vec![0; 14];
    played[0] = 8;
    let bytes = vec![0x02, 0x28, 0x40, 0, 0, 0, 0, 0];
    assert_eq!(one_and_zeros([0, 0], 9, &bank), (bytes, 15, played));
}

/// A pair at the limit, the lowest history and the lowest sample.
#[test]
fn a_frame_with_the_largest_prediction() {
    let bank = std::array::from_fn(|place| [-32_768, -28_672][place % 2]);
    let (bytes, passes, played) = one_and_zeros([-32_768; 2], -32_768, &bank);
    assert_eq!((bytes, passes), (vec![0x0c, 0x87, 0x87, 0x87, 0x87, 0x87, 0x87, 0x87], 16));
    assert_eq!(played[..2], [32_767, -32_768]);
}

#[test]
fn sample_9_as_a_clip() {
    let encoded = encode(&[&[9]], 32_000, 15, &ZEROS, 0, [0, 0]).unwrap();
    assert_eq!((encoded.blocks.len(), encoded.passes, encoded.history), (1, 16, [8, 0]));
    let block = &encoded.blocks[0];
    assert_eq!((block.bytes.as_slice(), block.len), ([0x01, 0x40].as_slice(), 3));
    assert_eq!((block.predictor_and_scale, block.last_samples), (1, [0, 0]));
    assert_eq!((block.rate, block.gain, block.coefficients), (32_000, 0, ZEROS));
}

/// Size 15 counts as 8, so that two frames make two blocks; size 16 holds both.
#[test]
fn block_size_is_cut_down_to_a_multiple_of_8() {
    for (size, blocks) in [(8, 2), (15, 2), (16, 1)] {
        let encoded = encode(&[&[9; 15]], 32_000, size, &ZEROS, 0, [0, 0]).unwrap();
        assert_eq!(encoded.blocks.len(), blocks, "size {size}");
    }
}
