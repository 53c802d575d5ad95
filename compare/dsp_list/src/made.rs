//! Files: of clips, and of any bytes.

use crate::file::{File, Header};
use clip_list::{Start, blocks_of, context_at};
use image_list::Clip;
use oracle::random::Random;
use oracle::{FrameContext, join_all};

/// The file of a clip, of the Rust's blocks.
pub fn file_of(clip: &Clip) -> File {
    let Start { total, rate, gain, coefficients, history, looped, .. } = clip.start;
    let (blocks, _) = blocks_of(&clip.start, &[&clip.samples]);
    let all: Vec<_> = blocks.iter().collect();
    let context = |looped: clip_list::Loop| context_at(&all, history, looped.start as usize);
    let context = looped.map_or(FrameContext::default(), context);
    let header = Header {
        total,
        nibbles: blocks.iter().map(|block| block.len as u32).sum(),
        rate,
        two: 2,
        coefficients,
        gain,
        first: blocks[0].context(),
        ..Header::default()
    };
    let bodies = join_all(blocks.iter().map(|block| &block.bytes[..]), &coefficients);
    let mut file = File { header, bodies };
    file.put_loop(looped, context.last_samples);
    file
}

/// Puts any coefficients but two of -32,768 in a pair, any bodies and any histories, so that the file is accepted.
pub fn put_any_bytes(random: &mut Random, file: &mut File) {
    for pair in file.header.coefficients.as_chunks_mut().0 {
        *pair = [random.sample(), random.sample()];
        if *pair == [i16::MIN; 2] {
            pair[1] = 0;
        }
    }
    file.bodies.fill_with(|| random.bits() as u8);
    repair(file);
    file.header.first.last_samples = [random.sample(), random.sample()];
    if file.header.flag == 1 {
        file.header.looped.last_samples = [random.sample(), random.sample()];
    }
}

/// Makes both header bytes those of their frames.
fn repair(file: &mut File) {
    file.header.first.predictor_and_scale = file.bodies[0].into();
    if file.header.flag == 1 {
        let place = 8 * (file.header.start as usize / 16);
        file.header.looped.predictor_and_scale = file.bodies[place].into();
    }
}

/// A clip of some length and block size, half of the time with a loop.
pub fn looped_or_not(random: &mut Random, total: usize, size: u32) -> Clip {
    let clip = Clip::new(random, total, size);
    Clip { start: clip_list::with_random_loop(random, clip.start), ..clip }
}

/// The file of a clip of some length, half of the time with a loop.
pub fn clip_file(random: &mut Random, total: usize) -> File {
    file_of(&looped_or_not(random, total, 64))
}

/// A file of any bytes, half of the time with a loop.
pub fn any_file(random: &mut Random, total: usize) -> File {
    let mut file = clip_file(random, total);
    put_any_bytes(random, &mut file);
    file
}
