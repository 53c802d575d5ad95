//! Random images.

use crate::call::Call;
use crate::case::{Case, MOST_ROOM};
use crate::damage::{block_count, damaged, has_loop, loop_place, with_nibble};
use crate::derived::{alike, altered_field};
use crate::made::{Clip, put_any_bytes};
use crate::reader::long;
use crate::writer::Writer;
use clip_list::{random_loop, random_samples, random_start, with_random_loop};
use oracle::random::Random;

/// A random image that is opened, read, damaged and compared.
pub fn random_images(random: &mut Random) -> Case {
    let samples = random_samples(random);
    let start = random_start(random, &samples);
    let clip = Clip { start: with_random_loop(random, start), samples };
    let mut image = clip.image();
    if random.below(4) == 0 {
        put_any_bytes(random, &mut image);
    }
    let after = random.below_one(&[1, 1, 40]);
    let image = [&image[..], &random_bytes(random, after)].concat();
    let mut case = Writer::new(&image);
    let mut of_runs = source(&image);
    case.open().call(Call::Same);
    for _ in 0..3 {
        read(random, &mut case, &image);
        run(&mut of_runs, &mut case, &image);
        turns(random, &mut case, &image);
    }
    for _ in 0..4 {
        let other = altered(random, &clip, &image);
        case.first(&other);
        read(random, &mut case, &image);
        run(&mut of_runs, &mut case, &image);
        turns(random, &mut case, &image);
        case.open().all_ways();
        if random.below(4) == 0 {
            case.second(&altered(random, &clip, &image)).all_ways().second(&image);
        }
    }
    compare_derived(&mut of_runs, &clip, &image, &mut case);
    case.finish()
}

/// Compares the image with one that mostly is the same, that with another such one or with one of which a field is altered, and this with the image.
fn compare_derived(random: &mut Random, clip: &Clip, image: &[u8], case: &mut Writer) {
    let first = alike(random, clip, image);
    let second = [alike, altered_field][random.below(2)](random, clip, &first);
    case.first(&first).second(image).all_ways();
    case.second(&second).all_ways().first(image).all_ways();
}

/// A source of random numbers that the image's bytes tell.
fn source(image: &[u8]) -> Random {
    let next = |seed: u64, byte: &u8| seed.wrapping_mul(257).wrapping_add(u64::from(*byte));
    Random::new(image.iter().fold(0, next))
}

fn random_bytes(random: &mut Random, len: usize) -> Vec<u8> {
    (0..len).map(|_| random.bits() as u8).collect()
}

/// The image damaged, with a nibble changed, at another block size, or with another loop.
fn altered(random: &mut Random, clip: &Clip, image: &[u8]) -> Vec<u8> {
    match random.below(9) {
        0 => clip.image_at(8 + random.below(200) as u32),
        1 => clip.image_of_first(1 + random.below(clip.samples.len())),
        2 => with_nibble(random, image),
        3 => {
            let other = random_loop(random, clip.start.total, clip.start.block());
            clip.image_with([None, Some(other)][random.below(2)])
        }
        _ => damaged(random, image),
    }
}

/// Finds and plays a block, with any room, or one that there is not; and plays all.
fn read(random: &mut Random, case: &mut Writer, image: &[u8]) {
    let blocks = block_count(image);
    let k = match random.below(8) {
        0 => [blocks as u32, blocks as u32 + 1, random.bits() as u32, u32::MAX][random.below(4)],
        _ => random.below(blocks) as u32,
    };
    let needed = case.samples(k);
    let room = match random.below(8) {
        0 => random.below(needed),
        _ => needed + random.below_one(&[1, 20]),
    };
    case.block(k, room);
    if random.below(2) == 0 {
        let total = (long(image, 4) as usize).saturating_add_signed(random.within(2) as isize);
        case.all(total.min(MOST_ROOM));
    }
}

/// Plays the loop up to three times, or more often than there is room for.
fn turns(random: &mut Random, case: &mut Writer, image: &[u8]) {
    let (times, room) = random_turns(random, image);
    case.turns(times, room.min(MOST_ROOM));
}

/// How many times an image's loop is played, and with which room; some are one sample short.
pub fn random_turns(random: &mut Random, image: &[u8]) -> (u32, usize) {
    let times = match random.below(16) {
        0 => [random.bits() as u32, u32::MAX, 1 << 31, 0x1_0000][random.below(4)],
        1 | 2 => 0,
        _ => 1 + random.below(3) as u32,
    };
    let samples = match has_loop(image) {
        true => long(image, loop_place(image) + 4) - long(image, loop_place(image)),
        false => random.below(3) as u32,
    };
    let needed = u64::from(times) * u64::from(samples);
    let most = needed.min(4 * u64::from(long(image, 4))) as usize;
    let room = match random.below(4) {
        0 => most.saturating_sub(1 + random.below_one(&[1, 20])),
        _ => most + random.below_one(&[1, 1, 20]),
    };
    (times, room)
}

/// Plays a run or two.
fn run(random: &mut Random, case: &mut Writer, image: &[u8]) {
    for _ in 0..1 + random.below(2) {
        let (first, room) = random_run(random, image);
        case.from(first, room.min(MOST_ROOM));
    }
}

/// A first sample and a room, near the clip's end and the edges of blocks more often; some first samples are not in the clip.
pub fn random_run(random: &mut Random, image: &[u8]) -> (u32, usize) {
    let [total, block] = [4, 12].map(|place| long(image, place) as usize);
    let per_block = block / 8 * 14;
    let edge = per_block * random.below(total / per_block + 1);
    let first = match random.below(8) {
        0 => 0,
        1 | 2 => (edge + random.below(3)).saturating_sub(1),
        3 => total - 1 - random.below(total.min(3)),
        4 => [total, total + 1, random.bits() as u32 as usize, u32::MAX as usize][random.below(4)],
        _ => random.below(total),
    };
    let left = total.saturating_sub(first);
    let to_edge = per_block * (1 + random.below(3)) - first % per_block;
    let room = match random.below(8) {
        0 => random.below(2),
        1 | 2 => to_edge + random.below(3) - 1,
        3 => (left + random.below(3)).saturating_sub(1),
        4 => left + random.below(30),
        _ => random.below(left + 2),
    };
    (first as u32, room.min(left + 30))
}
