//! The list of calls on blocks.

use super::{bytes, digits, digits_of, list, number, words};
use doilycairn::{Block, Coefficients, FrameContext, address_to_sample, join, sample_to_address};

fn play(block: &Block, room: usize) -> String {
    let mut out = vec![0x5a5a; room];
    let (code, samples, context) = match block.play(&mut out) {
        Ok(played) => (0, played.samples, played.context),
        Err(why) => (why.number(), 0, block.context),
    };
    let FrameContext { predictor_and_scale, last_samples } = context;
    let history = digits_of(&last_samples);
    format!("{code:02x} {samples:09x} {predictor_and_scale:04x}{history} {}", digits_of(&out))
}

fn joined(first: &Block, second: &Block, room: usize) -> String {
    let mut out = vec![0x5a; room];
    let (code, sum) = match join(first, second, &mut out) {
        Ok(sum) => (0, sum),
        Err(why) => (why.number(), 0),
    };
    format!("{code:02x} {sum:09x} {}", digits(&out))
}

fn answer(record: &[u8]) -> String {
    let [_, newest, older] = words(&record[12..]);
    let context = FrameContext {
        predictor_and_scale: u16::from_be_bytes([record[12], record[13]]),
        last_samples: [newest, older],
    };
    let block = |len: u8, nibbles: usize, coefficients: usize, at: usize| Block {
        bytes: &record[at..at + usize::from(len)],
        nibbles: number(&record[nibbles..]),
        coefficients: Coefficients(words(&record[coefficients..])),
        context,
    };
    let (first, second) = (block(record[1], 4, 18, 82), block(record[2], 8, 50, 130));
    let room = record[3].into();
    match record[0] {
        0 => play(&first, room),
        1 => joined(&first, &second, room),
        _ => {
            let (sample, address) =
                (address_to_sample(first.nibbles), sample_to_address(first.nibbles));
            format!("00 {sample:09x} {address:09x}")
        }
    }
}

#[test]
fn blocks() {
    let (lines, answers) = list("block_list");
    assert_eq!(lines.len(), answers.len());
    for (line, expected) in lines.iter().zip(answers) {
        assert_eq!(answer(&bytes(line)).trim_end(), expected.trim_end(), "{line}");
    }
}
