//! Writes a list of calls on clips or the answers: the fixed list, or random clips.
//! Usage: clip_list inputs | answers
//!        clip_list random COUNT SEED inputs | answers

use clip_list::{cases, random_clip};
use oracle::list::write_list;
use std::io;

fn main() -> io::Result<()> {
    write_list(cases, random_clip)
}
