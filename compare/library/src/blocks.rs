//! Blocks without an image: playing, joining, addresses.

use crate::convert::{context, library_context, number};
use crate::tally::Tally;
use block_list::{Case, Part, play_code};
use doilycairn::{Block, Coefficients};
use oracle::random::Random;
use oracle::{FrameContext, decode};

/// The calls of the fixed list.
pub fn fixed(tally: &mut Tally) {
    block_list::cases().iter().for_each(|case| compare(case, tally));
}

/// A random call.
pub fn random(random: &mut Random, tally: &mut Tally) {
    compare(&block_list::random_call(random), tally);
}

fn compare(case: &Case, tally: &mut Tally) {
    match case {
        Case::Play { part, context, room } => {
            tally.compare(
                "play_bytes",
                case,
                play(part, *context, *room),
                right_play(part, *context, *room),
            );
        }
        Case::Join { first, second, room } => {
            tally.compare(
                "join",
                case,
                join(first, second, *room),
                right_join(first, second, *room),
            );
        }
        Case::Addresses(value) => addresses(*value, case, tally),
    }
}

fn addresses(value: u32, case: &Case, tally: &mut Tally) {
    let library = doilycairn::address_to_sample(value);
    let right = oracle::address_to_sample(value as usize) as u64;
    tally.compare("address_to_sample", case, library, right);
    let library = doilycairn::sample_to_address(value);
    let right = oracle::sample_to_address(value as usize) as u64;
    tally.compare("sample_to_address", case, library, right);
}

/// The count and the context, and the output.
type Played = (Result<(usize, FrameContext), u8>, Vec<i16>);

/// What an output holds before a call.
fn pattern(room: usize) -> Vec<i16> {
    (0..room).map(|place| (place * 251) as i16).collect()
}

fn play(part: &Part, from: FrameContext, room: usize) -> Played {
    let mut out = pattern(room);
    let (coefficients, from) = (Coefficients(part.coefficients), library_context(from));
    let played = doilycairn::play_bytes(&part.bytes, part.len, &coefficients, from, &mut out);
    (played.map(|played| (played.samples, context(played.context))).map_err(number), out)
}

fn right_play(part: &Part, from: FrameContext, room: usize) -> Played {
    let mut out = pattern(room);
    let code = play_code(part, room);
    if code != 0 {
        return (Err(code), out);
    }
    let (samples, after) = decode(&part.bytes, part.len as usize, &part.coefficients, from);
    out[..samples.len()].copy_from_slice(&samples);
    (Ok((samples.len(), after)), out)
}

/// The sum of the lengths, and the output.
type Joined = (Result<u64, u8>, Vec<u8>);

fn join(first: &Part, second: &Part, room: usize) -> Joined {
    let mut out = vec![0x5a; room];
    let sum = doilycairn::join(&block(first), &block(second), &mut out);
    (sum.map_err(number), out)
}

/// A part as a block; joining does not look at the context.
fn block(part: &Part) -> Block<'_> {
    Block {
        bytes: &part.bytes,
        nibbles: part.len,
        coefficients: Coefficients(part.coefficients),
        context: doilycairn::FrameContext::default(),
    }
}

fn right_join(first: &Part, second: &Part, room: usize) -> Joined {
    let mut out = vec![0x5a; room];
    if room < first.bytes.len() + second.bytes.len() {
        return (Err(14), out);
    }
    match oracle::join(&first.bytes, &first.coefficients, &second.bytes, &second.coefficients) {
        Ok(bytes) => {
            out[..bytes.len()].copy_from_slice(&bytes);
            (Ok(u64::from(first.len) + u64::from(second.len)), out)
        }
        Err(_) => (Err(18), out),
    }
}
