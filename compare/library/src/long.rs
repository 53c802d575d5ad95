//! Clips whose offsets and lengths have more than 16 bits.

use crate::clips::read;
use crate::encoding::{encoded, random_start};
use crate::tally::Tally;
use clip_list::Start;
use oracle::random::Random;

/// A clip of 70,000 to 300,000 samples in long blocks.
pub fn random(random: &mut Random, tally: &mut Tally) {
    let len = 70_000 + random.below(230_001);
    let samples = random.tone(len);
    let size = 1000 + random.below(64_537) as u32;
    let start = Start { size, ..random_start(random, &samples) };
    let image = encoded(random, &start, &samples, tally);
    read(random, &image, tally);
}
