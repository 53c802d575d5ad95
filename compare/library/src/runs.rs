//! A run from a sample on: through C, through the crate, as a range and as an inverted one, and cut in two.

use crate::c_calls::{Read, compare_play_from, located, right_run, shown};
use crate::convert::refused;
use crate::ffi;
use crate::reading::pattern;
use crate::tally::Tally;
use doilycairn::Image;
use image_list::reader::{self, Refused};
use image_list::{Located, Run};
use std::ops::Range;

/// An image whose runs are compared, and what it should play.
pub struct Runs<'a> {
    bytes: &'a [u8],
    image: Option<Image<'a>>,
    located: Result<Located, Refused>,
    tally: &'a mut Tally,
}

impl<'a> Runs<'a> {
    pub fn new(bytes: &'a [u8], tally: &'a mut Tally) -> Self {
        let read: Read = reader::open(bytes);
        Self { bytes, image: Image::open(bytes).ok(), located: located(&read), tally }
    }

    /// A run, and the same run cut in two after `cut` samples.
    pub fn compare(&mut self, first: u32, room: usize, cut: usize) {
        let right = right_run(&self.located, first, room);
        compare_play_from(self.bytes, &right, first, room, self.tally);
        if let Some(image) = self.image {
            self.compare_crate(&image, &right, first, room);
            let end = first.saturating_add(room as u32);
            self.compare_range(&image, first..end);
            self.compare_range(&image, end..first);
        }
        self.compare_in_two(&right, first, [cut, room - cut]);
    }

    /// Plays through the crate, with a room.
    fn compare_crate(&mut self, image: &Image, right: &Run, first: u32, room: usize) {
        let mut out = pattern(room);
        let library = image.play_from(first, &mut out).map_err(refused);
        let library = library.map(|part| (part.samples, part.blocks));
        let mut right_out = pattern(room);
        let right = right.as_ref().map_err(|refused| *refused).map(|(samples, blocks)| {
            right_out[..samples.len()].copy_from_slice(samples);
            (samples.len(), *blocks)
        });
        let input = (shown(self.bytes), first, room);
        self.tally.compare("Image::play_from", &input, library, right);
        self.tally.compare("Image::play_from's output", &input, out, right_out);
    }

    /// Asks the crate for the samples of a range: as many as from its start to its end, none where it is inverted.
    fn compare_range(&mut self, image: &Image, range: Range<u32>) {
        let right = right_run(&self.located, range.start, range.len());
        let input = (shown(self.bytes), range.clone());
        let library = image.part(range).map_err(refused);
        self.tally.compare("Image::part", &input, library, right.map(|(samples, _)| samples));
    }

    /// The first part of a run, and from where it ended the second: the samples of both are the whole run's, and each has its own blocks.
    fn compare_in_two(&mut self, right: &Run, first: u32, rooms: [usize; 2]) {
        let (mut joined, mut next) = (vec![], first);
        let mut blocks = [0; 2];
        let mut right_blocks = [0; 2];
        for (i, room) in rooms.into_iter().enumerate() {
            let mut out = pattern(room);
            let part = ffi::play_from(self.bytes, next, &mut out);
            joined.extend(&out[..part.samples as usize]);
            blocks[i] = part.blocks;
            right_blocks[i] = right_run(&self.located, next, room).map_or(0, |(_, blocks)| blocks);
            next = next.saturating_add(part.samples as u32);
        }
        let right = right.as_ref().map_or(vec![], |(samples, _)| samples.clone());
        let input = (shown(self.bytes), first, rooms);
        self.tally.compare("in two", &input, (joined, blocks), (right, right_blocks));
    }
}
