//! What the picture shows.

use crate::loops::Looped;
use doilycairn::Head;

/// The most columns that samples and frames are gathered in.
pub const COLUMNS: u32 = 1120;

/// The most block edges that are drawn.
const EDGES: u32 = 50;

/// The largest of some numbers, the first among equals, and its place.
#[derive(Clone, Copy, Debug, PartialEq, Eq)]
pub struct Peak {
    pub size: u32,
    pub at: u32,
}

/// Samples that a column has at least where their root mean square is drawn.
const MANY: u32 = 16;

/// The samples of a column: the lowest and the highest, with what the column before ends with; how many they are, and the sum of their squares;
/// the largest distance from the reference and the largest bound of one.
#[derive(Clone, Copy, Debug, PartialEq, Eq)]
pub struct Column {
    pub low: i16,
    pub high: i16,
    pub samples: u32,
    pub squares: u64,
    pub distance: u32,
    pub bound: u32,
}

impl Column {
    /// The root mean square.
    pub fn rms(&self) -> f64 {
        (self.squares as f64 / f64::from(self.samples.max(1))).sqrt()
    }
}

/// The frames of a column: how many have each exponent, and each predictor.
#[derive(Clone, Copy, Debug, Default, PartialEq, Eq)]
pub struct Cell {
    pub exponents: [u32; 16],
    pub predictors: [u32; 8],
}

/// The edges of blocks where the next entry's history is not what the block before ended with.
#[derive(Clone, Debug, Default)]
pub struct Seams {
    pub count: u32,
    /// By how much the history is off, and the first sample of the block.
    pub largest: Option<Peak>,
    /// Which columns have one.
    pub columns: Vec<bool>,
}

/// How far what is played is from the reference.
#[derive(Clone, Debug)]
pub struct Distance {
    /// None where the reference has no sample.
    pub largest: Option<Peak>,
    /// The exponent of the frame that it is in.
    pub exponent: u8,
    /// Samples of the reference.
    pub reference_len: usize,
}

#[derive(Clone, Debug)]
pub struct Seen {
    pub head: Head,
    pub frames: u32,
    /// One for each sample, or at most [`COLUMNS`].
    pub columns: Vec<Column>,
    /// One for each frame, or at most [`COLUMNS`].
    pub cells: Vec<Cell>,
    /// Between neighbouring samples: its place is that of the second.
    pub jump: Option<Peak>,
    /// The largest that stands out: from the reference, or else from what is around it.
    pub odd: Option<Peak>,
    pub seams: Seams,
    pub looped: Option<Looped>,
    pub distance: Option<Distance>,
}

/// The first of 1, 2, 5, 10, 20, 50 and so on that goes at most `most` times into `count`.
pub fn step(count: u32, most: u32) -> u32 {
    let steps = (0..8).flat_map(|e| [1, 2, 5].map(|digit| digit * 10_u32.pow(e)));
    steps.into_iter().find(|step| count / step <= most).unwrap_or(count)
}

/// The largest distance from the original that a frame of this exponent is proved to have.
pub fn bound(exponent: u8) -> Option<u32> {
    (exponent < 12).then(|| (3_u32 << exponent).div_ceil(2))
}

impl Seen {
    /// Whether a column has several samples.
    pub fn gathered(&self) -> bool {
        self.head.total > COLUMNS
    }

    /// Whether the root mean square is drawn.
    pub fn has_rms(&self) -> bool {
        self.head.total / COLUMNS >= MANY
    }

    /// The first sample of column `g`; the count of samples after the last one.
    pub fn sample_of(&self, g: usize) -> u32 {
        (g as u64 * u64::from(self.head.total)).div_ceil(self.columns.len() as u64) as u32
    }

    /// The first sample of cell `c`; the count of samples after the last one.
    pub fn cell_start(&self, c: usize) -> u32 {
        let frame = (c as u64 * u64::from(self.frames)).div_ceil(self.cells.len() as u64) as u32;
        (14 * frame).min(self.head.total)
    }

    /// Whether a click is marked.
    pub fn clicks(&self) -> bool {
        self.seams.largest.is_some() || self.looped.is_some_and(|looped| looped.off().is_some())
    }

    /// Samples in a block that is not the last.
    pub fn block_samples(&self) -> u32 {
        self.head.block / 8 * 14
    }

    /// The first samples of the blocks whose edges are drawn, and of how many edges each is one.
    pub fn edges(&self) -> (Vec<u32>, u32) {
        let all = self.head.blocks - 1;
        let step = step(all, EDGES);
        let drawn = (1..=all).filter(|j| j % step == 0).map(|j| j * self.block_samples());
        (drawn.collect(), step)
    }

    /// The largest magnitude of a sample.
    pub fn loudest(&self) -> u32 {
        let magnitude = |column: &Column| column.low.unsigned_abs().max(column.high.unsigned_abs());
        self.columns.iter().map(magnitude).max().unwrap_or(0).into()
    }

    /// How many exponents the axis has: 0 to 12, or what an image of other making needs.
    pub fn exponents(&self) -> usize {
        let needed = |count: &usize| {
            self.cells.iter().all(|cell| cell.exponents[*count..] == [0; 16][*count..])
        };
        (13..16).find(needed).unwrap_or(16)
    }

    /// How many frames have predictor `k`.
    pub fn predicted_by(&self, k: usize) -> u32 {
        self.cells.iter().map(|cell| cell.predictors[k]).sum()
    }
}
