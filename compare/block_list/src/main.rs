//! Writes a list of calls on blocks or the Rust's answers: the fixed list, or random calls.
//! Usage: block_list inputs | answers
//!        block_list random COUNT SEED inputs | answers

use block_list::{cases, random_call};
use oracle::list::write_list;
use std::io;

fn main() -> io::Result<()> {
    write_list(cases, random_call)
}
