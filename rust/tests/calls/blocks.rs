//! Blocks without an image: playing in parts, joining.

use crate::clips::{encode, tone};
use doilycairn::{Block, FrameContext, Image, Refusal, join, play_bytes, sample_to_address};

#[test]
fn a_block_plays_as_its_frames_in_turn() {
    let clip = tone(300);
    let bytes = encode(&clip, 65_536);
    let image = Image::open(&bytes).unwrap();
    let block = image.block(0).unwrap();
    let mut context = block.context;
    let mut played = vec![];
    let mut left = block.nibbles;
    for frame in block.bytes.chunks(8) {
        context.predictor_and_scale = frame[0].into();
        let nibbles = left.min(16);
        let mut out = [0; 14];
        let after = play_bytes(frame, nibbles, &block.coefficients, context, &mut out).unwrap();
        played.extend(&out[..after.samples]);
        context = after.context;
        left -= nibbles;
    }
    assert_eq!(Ok(played), image.play());
}

#[test]
fn the_first_samples_of_a_block() {
    let bytes = encode(&tone(300), 65_536);
    let image = Image::open(&bytes).unwrap();
    let (block, whole) = (image.block(0).unwrap(), image.play().unwrap());
    for count in 1..300 {
        let nibbles = sample_to_address(count) as u32;
        let mut out = vec![0x5a; 301];
        let part = Block { nibbles, ..block };
        assert_eq!(part.play(&mut out).unwrap().samples, count as usize);
        assert_eq!(out[..count as usize], whole[..count as usize]);
        assert!(out[count as usize..].iter().all(|sample| *sample == 0x5a));
    }
}

#[test]
fn joined_blocks_of_an_image_play_as_one() {
    let bytes = encode(&tone(300), 80);
    let image = Image::open(&bytes).unwrap();
    let blocks: Vec<_> = image.blocks().collect();
    let mut joined = blocks[0].bytes.to_vec();
    let mut nibbles = u64::from(blocks[0].nibbles);
    for block in &blocks[1..] {
        let first = Block { bytes: &joined, nibbles: nibbles as u32, ..blocks[0] };
        let mut out = vec![0x5a; joined.len() + block.bytes.len() + 1];
        nibbles = join(&first, block, &mut out).unwrap();
        assert_eq!(out.pop(), Some(0x5a));
        joined = out;
    }
    let whole = Block { bytes: &joined, nibbles: nibbles as u32, ..blocks[0] };
    let mut out = vec![0; 300];
    assert_eq!(whole.play(&mut out).unwrap().samples, 300);
    assert_eq!(Ok(out), image.play());
}

#[test]
fn lengths_add_up_in_64_bits() {
    let block = Block {
        bytes: &[],
        nibbles: u32::MAX,
        coefficients: Default::default(),
        context: FrameContext::default(),
    };
    assert_eq!(join(&block, &block, &mut []), Ok(2 * u64::from(u32::MAX)));
    assert_eq!(block.play(&mut []), Err(Refusal::LengthOutOfRange));
}
