//! Writes a list of exports and imports or the answers: the fixed list, or random files.
//! Usage: dsp_list inputs | answers
//!        dsp_list random COUNT SEED inputs | answers

use dsp_list::{cases, random_files};
use oracle::list::write_list;
use std::io;

fn main() -> io::Result<()> {
    write_list(cases, random_files)
}
