//! Writes a list of clips or the Rust's answers: the fixed list, or random clips.
//! Usage: coefficient_list inputs | answers
//!        coefficient_list random COUNT SEED inputs | answers

use coefficient_list::{cases, random_clip};
use oracle::list::write_list;
use std::io;

fn main() -> io::Result<()> {
    write_list(cases, random_clip)
}
