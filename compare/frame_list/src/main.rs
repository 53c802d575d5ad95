//! Writes a list of frames or the Rust's answers: the fixed list, or random frames.
//! Usage: frame_list inputs | answers
//!        frame_list random COUNT SEED inputs | answers

use frame_list::{cases, random_frame};
use oracle::list::write_list;
use std::io;

fn main() -> io::Result<()> {
    write_list(cases, random_frame)
}
