//! Playing from any sample on, as change 1/13 of document 02 says, read plainly; the blocks are played by the Rust.

use crate::reader::{Opened, Refused};

/// What is played from a sample on, and "the number of blocks the run overlaps".
pub type Run = Result<(Vec<i16>, u32), Refused>;

/// What "playing the whole clip gives": each sample, and the block that it lies in.
pub struct Located {
    samples: Vec<i16>,
    blocks: Vec<u32>,
}

impl Opened<'_> {
    /// Plays each block from its own entry, and joins them.
    pub fn located(&self) -> Result<Located, Refused> {
        self.test_pairs()?;
        let (mut samples, mut blocks) = (vec![], vec![]);
        for k in 0..self.entries.len() {
            let (played, _) = self.play(k, usize::MAX)?;
            blocks.extend(played.iter().map(|_| k as u32));
            samples.extend(played);
        }
        assert_eq!(samples.len(), self.total as usize);
        Ok(Located { samples, blocks })
    }

    /// Plays from a sample on with a room.
    pub fn play_from(&self, first: u32, room: usize) -> Run {
        self.located()?.run(first, room)
    }
}

impl Located {
    /// "19 when the first sample is N or more"; else "fill the buffer, across blocks if needed, or up to the clip's last sample".
    pub fn run(&self, first: u32, room: usize) -> Run {
        let first = first as usize;
        if first >= self.samples.len() {
            return Err(Refused::by(19));
        }
        let run = first..self.samples.len().min(first.saturating_add(room));
        let mut touched = self.blocks[run.clone()].to_vec();
        touched.dedup();
        Ok((self.samples[run].to_vec(), touched.len() as u32))
    }
}
