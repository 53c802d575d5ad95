//! Lists of calls on blocks, and the Rust's answers.
//!
//! A line of a list is a record of 178 bytes in hexadecimal digits: 0 what to do (0 play, 1 join, 2 addresses), 1 and 2 how
//! many bytes the two blocks have, 3 the output's length, 4 and 8 the lengths in nibbles (four bytes each, the first also the
//! address), 12 the context's header and its two samples, 18 and 50 the two blocks' coefficients, 82 and 130 their bytes.
//!
//! A line of the answers is 00 or the refusal's number (2 digits), the count or the lengths' sum (9 digits), the context after
//! playing, and the whole output, which holds 5A in each byte at first; for addresses the two values. What is played, joined and
//! converted is the Rust's answer. The refusals' numbers are the port's.

mod case;
mod cases;
mod random;

pub use case::{Case, Part, has_lowest_pair, play_code};
pub use cases::cases;
pub use random::random_call;
