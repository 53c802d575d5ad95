//! The samples of an image in turn.

use crate::{Image, Refusal};

/// The samples of an image in turn, a block played at a time.
#[derive(Clone, Debug)]
pub struct Samples<'a> {
    image: Image<'a>,
    /// The block to play next.
    next: u32,
    /// The block being handed out, and the place in it.
    played: Vec<i16>,
    at: usize,
    left: usize,
}

impl<'a> Samples<'a> {
    /// Plays the first block. Where it plays, all do: they have the same coefficients, and the image is open.
    pub(crate) fn new(image: Image<'a>) -> Result<Self, Refusal> {
        let left = image.head().total as usize;
        let mut samples = Self { image, next: 0, played: vec![], at: 0, left };
        samples.play_next()?;
        Ok(samples)
    }

    /// Plays the next block, if there is one.
    fn play_next(&mut self) -> Result<(), Refusal> {
        self.at = 0;
        self.played.clear();
        if self.next < self.image.head().blocks {
            let block = self.image.entry(self.next);
            self.next += 1;
            self.played.resize(block.sample_count(), 0);
            block.play(&mut self.played)?;
        }
        Ok(())
    }
}

impl Iterator for Samples<'_> {
    type Item = i16;

    fn next(&mut self) -> Option<i16> {
        if self.at == self.played.len() {
            self.play_next().expect("a block of an open image plays where the first one does");
        }
        let sample = *self.played.get(self.at)?;
        self.at += 1;
        self.left -= 1;
        Some(sample)
    }

    fn size_hint(&self) -> (usize, Option<usize>) {
        (self.left, Some(self.left))
    }
}

impl ExactSizeIterator for Samples<'_> {}
impl std::iter::FusedIterator for Samples<'_> {}
