//! Lists of calls on images, and the answers that the Rust's blocks and documents 01 and 02 give.
//!
//! There are two images. A line of a list has 56 bytes: a letter, a record of 27 bytes in hexadecimal digits, and the line's end.
//! `b`, `f` and `g` put bytes into both images, the first or the second: 0 their place (two bytes), 2 how many, 3 the bytes. The
//! others are calls: 0 and 2 the lengths of the two images that are lent (two bytes each), 4 the number of the block, of the first
//! sample or of times (four bytes), 8 the output's length (two bytes). `o` opens the first image, `k` finds the body of a block of it,
//! `p` plays that block, `a` plays all blocks, `m` plays from that sample on, `t` plays the loop that many times, `s` compares the first
//! image with the second, `r` the second with the first, `h` and `v` do the same by the sound alone.
//!
//! A line answers each call: 00 or the refusal's number; with 20, 21 and 22 the block whose entry is bad, else 0; then N, rate, B,
//! coefficients, gain and K, zeros where opening is refused, and where the image opens and has a loop its start, its end (eight digits
//! each) and its context; the body, if there is one; the count, the context (`m`: the blocks that were touched, in eight digits; `t`:
//! neither) and the whole output, which holds 5A in each byte at first; or 1 where the images are, or sound, the same and else 0. Images
//! are made of the Rust's blocks, and what is played is the Rust's answer; how an image is read, what counts where two are compared, and
//! the numbers of the refusals, are document 01's with changes 1/13, 4/13, 5/13 and 7/13 of document 02.

mod call;
mod case;
mod cases;
mod comparing;
mod contents;
mod damage;
mod derived;
mod fault;
mod headers;
mod located;
mod loop_damage;
mod looped;
mod loops;
mod made;
mod random;
pub mod reader;
mod refusals;
mod refused_pairs;
mod refused_runs;
mod regrouped;
mod runs;
mod sameness;
mod strictly;
mod uncounted;
mod writer;

pub use call::Call;
pub use case::{Case, Machine, Step, To};
pub use cases::cases;
pub use comparing::{Counted, Sameness, counted, same, sameness, sounds_same};
pub use damage::{
    ENTRY, HEAD, LOWEST, MARK_END, PAIRS, block_count, body, damaged, has_loop, loop_place, table,
    with_nibble,
};
pub use derived::{alike, altered_field};
pub use fault::{FAULTS, Fault, change};
pub use headers::{
    frame_count, frame_of_loop, frames_of_a_block, header_place, put_header, spare_place, whole,
    with_header,
};
pub use located::{Located, Run};
pub use loop_damage::{damage_loop, loop_frame, put_ends};
pub use looped::{LoopEntry, Turns};
pub use made::{
    Clip, any_image, clip_image, looped_or_not, put_any_bytes, put_any_histories, put_quiet, with,
};
pub use random::{random_images, random_run, random_turns};
pub use regrouped::regrouped;
pub use strictly::silence;
