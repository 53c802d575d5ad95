//! Lists of calls on clips, and the answers, states and images that the Rust's blocks give.
//!
//! A line of a list has 182 bytes: a letter, a record of 90 bytes in hexadecimal digits, and the line's end. The record: 0 the
//! length of the image buffer that the call is lent (two bytes), 2 whether the answer has the buffer's bytes, 3 how many samples
//! there are, whether the clip is closed, or whether there is a loop; at 4 the samples, or 4 N, 8 rate, 12 block size (four bytes each),
//! 16 gain, 18 coefficients, 50 the newest and the older history sample (two bytes each), 54 n, 58 passes (four bytes each), 62 the
//! unfinished frame; or 4 a loop's start, 8 its end (four bytes each), 12 header, 14 newest and 16 older history sample of the context
//! at its start (two bytes each). `n` fills the buffer, byte i with i modulo 251; `p` puts a state with no loop; `l` puts a loop and
//! its context into the state; `s` starts a clip, with the state's loop where 3 is 1, else with none; `b` adds the samples to the piece
//! that is to come; `f` does the same and feeds that piece; `c` closes. A start with a loop is a line `l` and a line `s`, a state with
//! a loop or a context a line `p` and a line `l`.
//!
//! A line answers each `s`, `f` and `c`: 00 or the refusal's number, the state's fields in the record's order from N on, whether
//! it is closed, where one of these numbers is not zero the loop's start, its end, whether there is one, header and history of its
//! context, then the digest of the lent buffer, and the buffer's bytes where the line asks for them. Bodies, lengths, contexts, the
//! history and the passes are the Rust's; how an image is made of them, and the numbers of the refusals, are document 01's, the limit
//! of a pair of coefficients and loops document 02's.

mod case;
mod cases;
mod codes;
mod image;
mod loop_entry;
mod looped;
mod loops;
mod machine;
mod older_banks;
mod random;
mod random_loops;
mod refusals;
mod run;
mod state;

pub use case::{Case, MOST_ROOM, Step, digest};
pub use cases::{HISTORIES, cases};
pub use codes::{block_count, body_size, image_size};
pub use image::{blocks_of, closed_image, image_of};
pub use loop_entry::{context_at, loop_entry};
pub use looped::{Loop, LoopState};
pub use loops::ramp;
pub use machine::Machine;
pub use random::{random_clip, random_samples, random_start};
pub use random_loops::{broken_loop, random_loop, with_loop_by_hand, with_random_loop};
pub use state::{Start, State, bytes, hexadecimal};
