//! Writes a list of calls on images or the answers: the fixed list, or random images.
//! Usage: image_list inputs | answers
//!        image_list random COUNT SEED inputs | answers

use image_list::{cases, random_images};
use oracle::list::write_list;
use std::io;

fn main() -> io::Result<()> {
    write_list(cases, random_images)
}
