//! Lists of exports and imports of .dsp files, and the answers that the Rust's blocks and change 6/13 of document 02 give.
//!
//! There are a source and an output, of 1,024 bytes each. A line of a list has 32 bytes: a letter, a record of 15 bytes in hexadecimal
//! digits, and the line's end. `p` puts bytes into the source: 0 their place (two bytes), 2 how many, 3 the bytes. `s` makes the output
//! the source and the source the output. The others are calls: 0 the length of the source that is lent, 2 that of the output (two bytes
//! each), 4 the block size (four bytes), 8 whether the answer has the output's bytes. `e` exports the image in the source, `i` imports
//! the file in it, `r` asks how much room that needs. Before a call byte i of the output is made i modulo 251.
//!
//! A line answers each call: 00 or the refusal's number; with 20, 21, 22 and 35 the block that it names, else 0; how many bytes, 0 where
//! it is refused; the digest of the lent output; and its bytes where the line asks for them. Files and images are made of the Rust's
//! blocks; what is played, joined and converted is the Rust's answer. How a file is read and written, and the numbers of the refusals,
//! are document 02's.

mod call;
mod case;
mod cases;
mod damage;
mod exporting;
mod fields;
mod file;
mod gaps;
mod images;
mod importing;
mod loops;
mod made;
mod random;
mod reasons;
mod rooms;
mod writer;

pub use call::{Answer, Call};
pub use case::{Case, Machine, Step, pattern};
pub use cases::cases;
pub use damage::{FIELDS, damaged, with_bytes_behind};
pub use exporting::{export, export_to};
pub use file::{File, HEADER, Header};
pub use importing::{as_one_block, import, import_to};
pub use made::{any_file, file_of, looped_or_not, put_any_bytes};
pub use random::{random_files, random_room, random_size, with_other_history};
