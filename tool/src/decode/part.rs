//! A part of the clip: from a sample on, so many samples or up to the last one.

use crate::args::Args;
use crate::console::Console;
use crate::failure::Failure;
use crate::input::ImageFile;
use crate::memory;
use crate::progress::Progress;
use crate::text::{count, counted};
use crate::wav;
use doilycairn::{BLOCK_SIZES, Head, Image, Refusal};
use std::io::{self, Write};

/// How many samples are played at once: every block has fewer.
const PIECE: u32 = 1 << 20;
const _: () = assert!(PIECE >= *BLOCK_SIZES.end() / 8 * 14);

/// So many samples, from the first on.
#[derive(Clone, Copy, Debug, PartialEq, Eq)]
pub struct Part {
    pub first: u32,
    pub count: u32,
}

impl Part {
    /// The options --from and --count, where one of them is given.
    pub fn of(args: &Args) -> Result<Option<Self>, Failure> {
        let Some(given) = ["--from", "--count"].into_iter().find(|name| args.has(name)) else {
            return Ok(None);
        };
        if args.has("--block") {
            return Err(Failure::usage(format!("--block and {given}: give one of the two")));
        }
        let number = |name| args.number(name, 0..=u64::from(u32::MAX));
        let first = number("--from")?.unwrap_or(0) as u32;
        let count = number("--count")?.map_or(u32::MAX, |count| count as u32);
        Ok(Some(Self { first, count }))
    }

    /// The same up to the clip's last sample at most; the first has to be in the clip.
    pub fn within(self, file: &ImageFile, image: &Image) -> Result<Self, Failure> {
        let total = image.head().total;
        match image.play_from(self.first, &mut []) {
            Ok(_) => Ok(Self { count: self.count.min(total - self.first), ..self }),
            Err(refusal @ Refusal::NoSuchSample) => {
                let has = counted(total, "sample", "samples");
                Err(file.refused(refusal).with(format!("; it has {has}")))
            }
            Err(refusal) => Err(file.refused(refusal)),
        }
    }

    /// How many of its samples are played at once, at most.
    pub fn at_once(self) -> u32 {
        self.count.min(PIECE)
    }

    /// Room for each of its pieces.
    pub fn room(self) -> Result<Vec<i16>, Failure> {
        memory::zeros(self.at_once() as usize)
    }

    /// Plays it, a piece at a time, and tells how many blocks were touched.
    pub fn write(
        self,
        image: &Image,
        room: &mut [i16],
        out: &mut dyn Write,
        console: &Console,
    ) -> io::Result<u32> {
        let mut progress = Progress::new(console, "decoding", self.count as usize);
        let (mut done, mut touched) = (0, 0);
        while done < self.count {
            let piece = self.after(done).piece(image.head());
            let played = &mut room[..piece.count as usize];
            let part = image.play_from(piece.first, played).map_err(io::Error::other)?;
            wav::write_samples(played, out)?;
            done += piece.count;
            touched += part.blocks;
            progress.at(done as usize);
        }
        Ok(touched)
    }

    /// What is left after so many samples.
    fn after(self, done: u32) -> Self {
        Self { first: self.first + done, count: self.count - done }
    }

    /// The beginning that is played at once: where it is not all, it ends at a block's edge, so that no block is in two pieces.
    fn piece(self, head: &Head) -> Self {
        let block = head.block / 8 * 14;
        let edge = (self.first + PIECE) / block * block;
        Self { count: self.count.min(edge - self.first), ..self }
    }

    /// In words, with the blocks that were touched.
    pub fn words(self, touched: u32) -> String {
        let samples = counted(self.count, "sample", "samples");
        let blocks = counted(touched, "block", "blocks");
        format!("{samples} from sample {}, {blocks} touched", count(self.first))
    }
}

#[cfg(test)]
mod tests {
    use super::*;
    use doilycairn::Coefficients;

    /// The pieces of a part of the longest clip.
    fn pieces(part: Part, block: u32) -> Vec<Part> {
        let (total, coefficients) = (doilycairn::MAX_SAMPLES, Coefficients::default());
        let head = Head { total, rate: 1, block, gain: 0, coefficients, blocks: 0 };
        let (mut pieces, mut done) = (vec![], 0);
        while done < part.count {
            pieces.push(part.after(done).piece(&head));
            done += pieces.last().map_or(0, |piece| piece.count);
        }
        pieces
    }

    #[test]
    fn pieces_go_on_at_the_edges_of_blocks() {
        for block in [8, 24, 80, 8192, 65_528, 65_536] {
            for first in [0, 1, 13, 114_687, 114_688, 1_000_003] {
                let part = Part { first, count: doilycairn::MAX_SAMPLES - first };
                let pieces = pieces(part, block);
                assert!(pieces.len() < 17, "{block} {first}");
                assert!(pieces.iter().all(|piece| (1..=PIECE).contains(&piece.count)));
                for pair in pieces.windows(2) {
                    assert_eq!(pair[0].first + pair[0].count, pair[1].first);
                    assert_eq!(pair[1].first % (block / 8 * 14), 0);
                }
                assert_eq!(pieces.iter().map(|piece| piece.count).sum::<u32>(), part.count);
            }
        }
    }

    #[test]
    fn a_short_part_is_one_piece() {
        for part in [Part { first: 5, count: 1 }, Part { first: 13, count: 900_000 }] {
            assert_eq!(pieces(part, 8), [part]);
        }
        assert_eq!(pieces(Part { first: 5, count: 0 }, 8), []);
    }

    #[test]
    fn words_count() {
        assert_eq!(
            Part { first: 400, count: 200 }.words(2),
            "200 samples from sample 400, 2 blocks touched"
        );
        assert_eq!(
            Part { first: 14_680_063, count: 1 }.words(1),
            "1 sample from sample 14,680,063, 1 block touched"
        );
    }
}
