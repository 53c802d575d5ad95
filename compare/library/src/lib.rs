//! Drives libdoilycairn.a and the unchanged Rust on the same inputs and compares every result.
//!
//! What is encoded, played, joined, converted and measured is the Rust's answer; refusals' numbers, states and how an image is made
//! and read are document 01's, the limit of a pair of coefficients, the block of a bad entry, the run from a sample on, loops, what
//! counts where two images are compared and .dsp files document 02's, read plainly.

mod answer;
mod blocks;
mod c_calls;
mod c_encoding;
mod c_files;
mod calls;
mod clip_sameness;
mod clips;
mod contents;
mod convert;
mod crate_files;
mod damage;
mod damaging;
mod encoding;
mod ffi;
mod files;
mod frame_count;
mod frames;
mod long;
mod long_files;
mod loop_damages;
mod loop_steps;
mod loops;
mod measuring;
mod parts;
mod reading;
mod runs;
mod sameness;
mod sameness_laws;
mod states;
mod stores;
mod tally;
mod turns;

pub use frame_count::FrameCount;
pub use tally::Tally;

use oracle::random::Random;

/// A part of the comparison: the fixed list where it has one, and random cases.
pub struct Part {
    pub name: &'static str,
    fixed: fn(&mut Tally),
    random: fn(&mut Random, &mut Tally),
}

/// Long clips, run where they are asked for.
pub const LONG: Part = Part { name: "long", fixed: |_| {}, random: long::random };

/// All other parts.
pub const PARTS: [Part; 11] = [
    Part { name: "frames", fixed: frames::fixed, random: frames::random },
    Part { name: "blocks", fixed: blocks::fixed, random: blocks::random },
    Part { name: "stores", fixed: |_| {}, random: stores::random },
    Part { name: "states", fixed: |_| {}, random: states::random },
    Part { name: "calls", fixed: calls::fixed, random: calls::random },
    Part { name: "clips", fixed: |_| {}, random: clips::random },
    Part { name: "parts", fixed: parts::fixed, random: parts::random },
    Part { name: "loops", fixed: loops::fixed, random: loops::random },
    Part { name: "sameness", fixed: sameness::fixed, random: sameness::random },
    Part { name: "contents", fixed: contents::fixed, random: contents::random },
    Part { name: "files", fixed: files::fixed, random: files::random },
];

/// Runs the fixed list and random cases. The comparison named `wrong` is made with altered answers and must fail.
pub fn run(part: &Part, count: u64, seed: u64, wrong: Option<&str>) -> Tally {
    let mut random = Random::new(seed);
    let mut tally = Tally::new(part.name, wrong.map(str::to_owned));
    (part.fixed)(&mut tally);
    for _ in 0..count {
        (part.random)(&mut random, &mut tally);
        tally.cases += 1;
    }
    tally
}
