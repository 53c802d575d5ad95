//! Images: of clips, and of any bytes.

use crate::damage::{ENTRY, HEAD, block_count, has_loop, loop_place, table};
use crate::fault::change;
use crate::headers::whole;
use crate::loop_damage::loop_frame;
use crate::reader::long;
use clip_list::{Loop, Start, bytes, image_of, random_start, with_random_loop};
use oracle::random::Random;

/// What a clip is started with, and its samples.
#[derive(Debug, Clone)]
pub struct Clip {
    pub start: Start,
    pub samples: Vec<i16>,
}

impl Clip {
    /// A clip of some length and block size.
    pub fn new(random: &mut Random, total: usize, size: u32) -> Self {
        let samples = if random.below(3) == 0 { random.tone(total) } else { random.clip(total) };
        let start = Start { size, ..random_start(random, &samples) };
        Self { start, samples }
    }

    /// The image of the Rust's blocks.
    pub fn image(&self) -> Vec<u8> {
        image_of(&self.start, &[&self.samples])
    }

    /// The image at another block size.
    pub fn image_at(&self, size: u32) -> Vec<u8> {
        image_of(&Start { size, ..self.start.clone() }, &[&self.samples])
    }

    /// The image with another loop, or with none.
    pub fn image_with(&self, looped: Option<Loop>) -> Vec<u8> {
        image_of(&Start { looped, ..self.start.clone() }, &[&self.samples])
    }

    /// The image of the first samples, with the loop where it is one of them.
    pub fn image_of_first(&self, total: usize) -> Vec<u8> {
        let looped = self.start.looped.filter(|looped| looped.is_within(total as u32));
        let start = Start { total: total as u32, looped, ..self.start.clone() };
        image_of(&start, &[&self.samples[..total]])
    }
}

/// The image of a clip.
pub fn clip_image(random: &mut Random, total: usize, size: u32) -> Vec<u8> {
    Clip::new(random, total, size).image()
}

/// The image of a clip, half of the time with a loop.
pub fn looped_or_not(random: &mut Random, total: usize, size: u32) -> Vec<u8> {
    let clip = Clip::new(random, total, size);
    let start = with_random_loop(random, clip.start);
    image_of(&start, &[&clip.samples])
}

/// An image that opens, with any coefficients but two of -32,768 in a pair, any bodies and any histories.
pub fn any_image(random: &mut Random, total: usize, size: u32) -> Vec<u8> {
    let mut image = clip_image(random, total, size);
    put_any_bytes(random, &mut image);
    image
}

/// Puts any coefficients but two of -32,768 in a pair, any bodies and any histories, so that the image opens.
pub fn put_any_bytes(random: &mut Random, image: &mut [u8]) {
    for place in (16..48).step_by(4) {
        let [c0, c1] = [random.sample(), random.sample()];
        let c1 = if [c0, c1] == [i16::MIN; 2] { 0 } else { c1 };
        image[place..place + 4].copy_from_slice(&bytes(&[c0, c1]));
    }
    let bodies = table(image);
    image[bodies..].fill_with(|| random.bits() as u8);
    for k in 0..block_count(image) {
        let place = HEAD + ENTRY * k;
        image[place + 9] = image[long(image, place) as usize];
    }
    if has_loop(image) {
        image[loop_place(image) + 9] = image[loop_frame(image)];
    }
    put_any_histories(random, image);
}

/// Puts any histories into the entries, others than the blocks before leave, and into the entry of a loop.
pub fn put_any_histories(random: &mut Random, image: &mut [u8]) {
    for k in 0..block_count(image) + usize::from(has_loop(image)) {
        let place = HEAD + ENTRY * k + 10;
        let history = bytes(&[random.sample(), random.sample()]);
        image[place..place + 4].copy_from_slice(&history);
    }
}

/// Makes much of an image unheard: coefficients zero or all pairs alike, some frames' nibbles zero, some histories zero.
pub fn put_quiet(random: &mut Random, image: &mut [u8]) {
    match random.below(4) {
        0 => image[16..48].fill(0),
        1 | 2 => (20..48).step_by(4).for_each(|place| image.copy_within(16..20, place)),
        _ => {}
    }
    let (bodies, end) = (table(image), whole(image));
    for frame in (bodies..end).step_by(8).filter(|_| random.below(4) > 0) {
        image[frame + 1..end.min(frame + 8)].fill(0);
    }
    for k in 0..block_count(image) + usize::from(has_loop(image)) {
        if random.below(2) == 0 {
            image[HEAD + ENTRY * k + 10..HEAD + ENTRY * k + 14].fill(0);
        }
    }
}

/// The image with bytes put at a place.
pub fn with(image: &[u8], place: usize, bytes: &[u8]) -> Vec<u8> {
    let mut image = image.to_vec();
    image[place..place + bytes.len()].copy_from_slice(bytes);
    image
}

/// The image with other bytes at places.
pub fn with_others(random: &mut Random, image: &[u8], places: &[usize]) -> Vec<u8> {
    let mut image = image.to_vec();
    places.iter().for_each(|place| image[*place] ^= change(random));
    image
}
