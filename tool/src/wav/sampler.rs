//! The loops of a WAV file: its smpl chunk.

use super::{fill, le32, skip};
use crate::loops::Span;
use crate::text::{count, counted};
use std::io::{self, Read};

/// What a smpl chunk has before its loops, and for each of them.
const BEFORE: usize = 36;
const EACH: usize = 24;

/// A loop that is played forwards.
#[derive(Clone, Copy, Debug, PartialEq, Eq)]
pub struct Forward {
    /// Its place among all loops, from 1 on.
    pub number: u32,
    pub first: u32,
    /// Its last sample, which it includes.
    pub last: u32,
}

impl Forward {
    /// The same up to the sample after the last, as an image has it.
    pub fn span(self) -> Span {
        Span { start: self.first.into(), end: u64::from(self.last) + 1 }
    }
}

/// The loops of a smpl chunk: how many it has, and the first that is played forwards.
#[derive(Clone, Copy, Debug, Default, PartialEq, Eq)]
pub struct Sampler {
    pub loops: u32,
    pub forward: Option<Forward>,
}

impl Sampler {
    /// Reads the chunk, of this size, and the byte after an odd one.
    pub fn read(reader: &mut dyn Read, size: u32) -> io::Result<Self> {
        let mut chunk = reader.take(u64::from(size));
        let mut head = [0; BEFORE];
        let mut sampler = Self::default();
        if fill(&mut chunk, &mut head)? == BEFORE {
            sampler.loops(&mut chunk, le32(&head[28..]))?;
        }
        io::copy(&mut chunk, &mut io::sink())?;
        skip(reader, u64::from(size & 1))?;
        Ok(sampler)
    }

    /// Reads the loops, as many as it says or as there are.
    fn loops(&mut self, chunk: &mut dyn Read, stated: u32) -> io::Result<()> {
        let mut bytes = [0; EACH];
        while self.loops < stated && fill(chunk, &mut bytes)? == EACH {
            self.loops += 1;
            let [kind, first, last] = [4, 8, 12].map(|at| le32(&bytes[at..]));
            let forward = (kind == 0).then_some(Forward { number: self.loops, first, last });
            self.forward = self.forward.or(forward);
        }
        Ok(())
    }

    /// What is said where the loop is taken that is played forwards.
    pub fn taken(&self) -> Option<String> {
        let Forward { number, first, last } = self.forward?;
        let (first, last) = (count(first), count(last));
        Some(match self.loops {
            1 => format!(" (smpl chunk: {first} to {last})"),
            more => {
                let (number, more) = (count(number), count(more));
                format!(" (smpl chunk, loop {number} of {more}: {first} to {last})")
            }
        })
    }

    /// What is said where its loops are left out.
    pub fn left_out(&self) -> Option<String> {
        match (self.loops, self.forward) {
            (0, _) => None,
            (1, Some(Forward { first, last, .. })) => {
                let (first, last) = (count(first), count(last));
                Some(format!("its loop, from sample {first} to {last} (smpl chunk), is left out"))
            }
            (loops, _) => Some(format!(
                "its {} left out (smpl chunk)",
                counted(loops, "loop is", "loops are")
            )),
        }
    }
}
