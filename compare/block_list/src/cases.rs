//! The fixed list.

use crate::case::{Case, MOST_BYTES, MOST_ROOM, Part, has_lowest_pair};
use oracle::random::Random;
use oracle::{Coefficients, FrameContext, address_to_sample};

/// Blocks of each residue of the length modulo 16.
const BLOCKS: usize = 26;

/// All cases, the same each time.
pub fn cases() -> Vec<Case> {
    let mut random = Random::new(1);
    let mut cases = vec![];
    for residue in 0..16 {
        for turn in 0..BLOCKS {
            let frames = if residue == 0 { 1 + turn % 6 } else { turn % 6 };
            cases.push(accepted(&mut random, 16 * frames + residue, turn % 2 == 0));
        }
    }
    for turn in 0..64 {
        cases.push(refused(&mut random, turn));
    }
    for turn in 0..64 {
        cases.push(joined(&mut random, turn));
    }
    cases.extend((0..36).chain([4_294_967_295, 4_294_967_294, 4_294_967_280]).map(Case::Addresses));
    cases.extend((0..25).map(|_| Case::Addresses(random.bits() as u32)));
    cases
}

/// Coefficients of 16 bits, the ends more often than others, and no pair with both -32,768.
fn wild(random: &mut Random) -> Coefficients {
    loop {
        let coefficients = match random.below(4) {
            0 => random.coefficients(),
            _ => std::array::from_fn(|_| random.sample()),
        };
        if !has_lowest_pair(&coefficients) {
            return coefficients;
        }
    }
}

fn bytes(random: &mut Random, count: usize) -> Vec<u8> {
    (0..count).map(|_| random.bits() as u8).collect()
}

fn context(random: &mut Random) -> FrameContext {
    FrameContext {
        predictor_and_scale: random.bits() as u16,
        last_samples: [random.sample(), random.sample()],
    }
}

/// A block of `len` nibbles that is played. A tame one has small headers, so that not each sample is clamped.
pub fn accepted(random: &mut Random, len: usize, tame: bool) -> Case {
    let room = address_to_sample(len);
    let least = len.div_ceil(2);
    let count = least + random.below(MOST_BYTES - least + 1).min(random.below(4));
    let mut part =
        Part { bytes: bytes(random, count), len: len as u32, coefficients: wild(random) };
    let mut start = context(random);
    if tame {
        for header in part.bytes.iter_mut().step_by(8) {
            *header = (*header & 0xf0) | (*header & 0x0f) % 9;
        }
        start.predictor_and_scale &= 0xfff7;
        part.coefficients = random.coefficients();
    }
    let room = room + random.below(4).min(MOST_ROOM - room);
    Case::Play { part, context: start, room }
}

/// A block that is refused, for one reason or several.
pub fn refused(random: &mut Random, turn: usize) -> Case {
    let count = random.below(MOST_BYTES + 1);
    let good = (1 + random.below(2 * count + 1)).min(2 * count);
    let bad_length = turn % 8 % 2 == 1 || good == 0;
    let len = match (bad_length, turn % 3) {
        (false, _) => good,
        (true, 0) => 0,
        (true, 1) => 2 * count + 1,
        (true, _) => 4_294_967_295 - random.below(3),
    };
    let mut coefficients = wild(random);
    if turn % 8 / 2 % 2 == 1 {
        let pair = random.below(8);
        coefficients[2 * pair] = i16::MIN;
        coefficients[2 * pair + 1] = i16::MIN;
    }
    let needed = address_to_sample(good);
    let room = if turn % 8 / 4 == 1 { needed.saturating_sub(1) } else { needed };
    let part = Part { bytes: bytes(random, count), len: len as u32, coefficients };
    Case::Play { part, context: context(random), room }
}

/// Two blocks to join.
pub fn joined(random: &mut Random, turn: usize) -> Case {
    let (first, second) = (random.below(MOST_BYTES + 1), random.below(MOST_BYTES + 1));
    let coefficients = wild(random);
    let mut others = coefficients;
    if turn % 4 >= 2 {
        let place = (turn / 4) % 16;
        others[place] = others[place].wrapping_add(1);
    }
    let total = first + second;
    let room = if turn % 2 == 1 {
        total.saturating_sub(1 + random.below(3))
    } else {
        total + random.below(4).min(MOST_ROOM - total)
    };
    let lengths = |random: &mut Random, count: usize| {
        if turn % 3 == 0 { random.bits() as u32 } else { 2 * count as u32 }
    };
    let (first_len, second_len) = (lengths(random, first), lengths(random, second));
    Case::Join {
        first: Part { bytes: bytes(random, first), len: first_len, coefficients },
        second: Part { bytes: bytes(random, second), len: second_len, coefficients: others },
        room,
    }
}
