//! Import, as change 6/13 of document 02 says it, read plainly; what is played is the Rust's answer.

use crate::file::{File, HEADER, Header};
use block_list::has_lowest_pair;
use clip_list::{Loop, Start, body_size, closed_image, loop_entry};
use image_list::reader::{Refused, long};
use oracle::{
    Block, FrameContext, SAMPLES_PER_FRAME, address_to_sample, decode, sample_to_address,
};

/// The most samples of a clip.
const MOST_SAMPLES: u32 = 14_680_064;

/// The body bytes that a count needs; "0 needs none".
fn needed(total: u32) -> u64 {
    if total == 0 { 0 } else { body_size(total) }
}

/// Not so: "a file under 96 bytes or with fewer body bytes than its count needs".
fn is_whole(file: &[u8]) -> bool {
    file.len() >= HEADER && (file.len() - HEADER) as u64 >= needed(long(file, 0))
}

/// "tests 4, 5, 6, 13 and 8 in that sequence"; "25 .., before 4", "26 .., after 6". The room is asked for later.
fn tested(file: &[u8], size: u32) -> Result<File, Refused> {
    if !is_whole(file) {
        return Err(Refused::by(25));
    }
    let Header { total, rate, .. } = Header::read(file);
    if total == 0 || total > MOST_SAMPLES {
        return Err(Refused::by(4));
    }
    if rate == 0 {
        return Err(Refused::by(5));
    }
    if !(8..=65_536).contains(&size) {
        return Err(Refused::by(6));
    }
    let file = bodies_alone(File::read(file));
    if !is_as_listed(&file, size - size % 8) {
        return Err(Refused::by(26));
    }
    if has_lowest_pair(&file.header.coefficients) {
        return Err(Refused::by(13));
    }
    Ok(file)
}

/// "Import drops bytes past the last body".
fn bodies_alone(mut file: File) -> File {
    file.bodies.truncate(body_size(file.header.total) as usize);
    file
}

/// The lengths of the blocks in nibbles, headers included.
fn lengths(total: u32, block: u32) -> Vec<usize> {
    let (total, per_block) = (total as usize, block as usize / 8 * SAMPLES_PER_FRAME);
    let samples = (0..total).step_by(per_block).map(|first| per_block.min(total - first));
    samples.map(|samples| samples + 2 * samples.div_ceil(SAMPLES_PER_FRAME)).collect()
}

/// Not so: "26 for a field not as listed, a header byte not its frame's or loop addresses not of the clip's samples or the last below the start".
fn is_as_listed(file: &File, block: u32) -> bool {
    let Header { total, nibbles, flag, zero, two, first, rest, .. } = file.header;
    let is_loop_listed = match flag {
        0 => is_without_loop(&file.header),
        1 => is_loop_listed(file),
        _ => false,
    };
    nibbles as usize == lengths(total, block).iter().sum()
        && zero == 0
        && two == 2
        && first.predictor_and_scale == u16::from(file.bodies[0])
        && rest == [0; 22]
        && is_loop_listed
}

/// "Loop fields are zero without a loop".
fn is_without_loop(header: &Header) -> bool {
    (header.start, header.last, header.looped) == (0, 0, FrameContext::default())
}

/// The sample at an address, where there is one.
fn sample_at(address: u32, total: u32) -> Option<u32> {
    let sample = address_to_sample(address as usize);
    let is_one = sample < total as usize && sample_to_address(sample) == address as usize;
    is_one.then_some(sample as u32)
}

/// The addresses, in their order, and the header byte of the start's frame.
fn is_loop_listed(file: &File) -> bool {
    let Header { total, start, last, looped, .. } = file.header;
    let [Some(first), Some(_)] = [start, last].map(|address| sample_at(address, total)) else {
        return false;
    };
    start <= last && looped.predictor_and_scale == u16::from(file.header_at(first))
}

/// The blocks: "works out each block's context by playing".
fn blocks(file: &File, block: u32) -> Vec<Block> {
    let Header { total, rate, gain, coefficients, first, .. } = file.header;
    let mut last_samples = first.last_samples;
    let mut blocks = vec![];
    for (body, len) in file.bodies.chunks(block as usize).zip(lengths(total, block)) {
        let predictor_and_scale = body[0].into();
        let bytes = body.to_vec();
        blocks.push(Block {
            bytes,
            len,
            rate,
            predictor_and_scale,
            last_samples,
            gain,
            coefficients,
        });
        let context = FrameContext { predictor_and_scale, last_samples };
        last_samples = decode(body, len, &coefficients, context).1.last_samples;
    }
    blocks
}

/// The loop, where there is one.
fn looped(header: &Header) -> Option<Loop> {
    let [start, last] =
        [header.start, header.last].map(|address| address_to_sample(address as usize) as u32);
    (header.flag == 1).then_some(Loop { start, end: last + 1 })
}

/// What a clip is started with that has this file, in blocks of a size.
pub fn start_of(header: &Header, size: u32) -> Start {
    let Header { total, rate, gain, coefficients, first, .. } = *header;
    let history = first.last_samples;
    Start { total, rate, size, gain, coefficients, history, looped: looped(header) }
}

/// The image of a file, or why it is refused before the room is asked for.
pub fn import(file: &[u8], size: u32) -> Result<Vec<u8>, Refused> {
    let file = tested(file, size)?;
    let start = start_of(&file.header, size);
    let entry = loop_entry(start.looped.into(), file.header.looped);
    Ok(closed_image(&start, &blocks(&file, start.block()), &entry))
}

/// The same with a room.
pub fn import_to(file: &[u8], size: u32, room: usize) -> Result<Vec<u8>, Refused> {
    let image = import(file, size)?;
    if room < image.len() { Err(Refused::by(8)) } else { Ok(image) }
}

/// What `Decoder` plays of an accepted file's "bytes as one block", of the stored length and from the stored context.
pub fn as_one_block(file: &[u8]) -> Vec<i16> {
    let File { header, bodies } = File::read(file);
    decode(&bodies, header.nibbles as usize, &header.coefficients, header.first).0
}
