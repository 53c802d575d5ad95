//! Random calls.

use crate::case::{Case, MOST_BYTES, Part};
use crate::cases::{accepted, joined, refused};
use oracle::random::Random;
use oracle::{address_to_sample, encode_blocks};

/// The turns after which `refused` and `joined` start anew.
const REFUSED_TURNS: usize = 24;
const JOINED_TURNS: usize = 192;

/// The most samples that a block's bytes hold.
const MOST_SAMPLES: usize = 2 * MOST_BYTES / 16 * 14;

/// A random call of any kind.
pub fn random_call(random: &mut Random) -> Case {
    match random.below(16) {
        0 => Case::Addresses(address(random)),
        1 | 2 => {
            let turn = random.below(REFUSED_TURNS);
            refused(random, turn)
        }
        3 | 4 => {
            let turn = random.below(JOINED_TURNS);
            joined(random, turn)
        }
        5..8 => encoded(random),
        _ => {
            let (len, tame) = (1 + random.below(2 * MOST_BYTES), random.below(2) == 0);
            accepted(random, len, tame)
        }
    }
}

/// A number of 32 bits of any size, or near the end.
fn address(random: &mut Random) -> u32 {
    match random.below(8) {
        0 => u32::MAX - random.below(40) as u32,
        _ => random.bits() as u32 >> random.below(32),
    }
}

/// A block that the Rust encoded, played whole or in part, from its own context.
fn encoded(random: &mut Random) -> Case {
    let count = 1 + random.below(MOST_SAMPLES);
    let (samples, coefficients) = (random.clip(count), random.coefficients());
    let history = [random.sample(), random.sample()];
    let (blocks, _) = encode_blocks(&[&samples], 1, MOST_BYTES, &coefficients, 0, history).unwrap();
    let block = &blocks[0];
    let len = if random.below(4) == 0 { 1 + random.below(block.len) } else { block.len };
    let part = Part { bytes: block.bytes.clone(), len: len as u32, coefficients };
    Case::Play { part, context: block.context(), room: address_to_sample(len) }
}
