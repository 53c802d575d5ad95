//! Ways to cut a clip into pieces.

use crate::{Clip, Step};

/// A way to cut.
#[derive(Debug, Copy, Clone, PartialEq)]
pub enum Cut {
    /// One piece.
    Whole,
    /// Pieces of this length, the last one shorter.
    Every(usize),
    /// The same, an empty piece before each of them and at the end.
    WithEmpty(usize),
    /// Pieces of this length with an asking after each.
    Asking(usize),
    /// Pieces of 0, 1, 2, 3 .. samples.
    Growing,
    /// One piece, asked for three times.
    AskedAgain,
}

impl Cut {
    /// All ways of the fixed list.
    pub const ALL: [Self; 14] = [
        Self::Whole,
        Self::Every(14),
        Self::Every(13),
        Self::WithEmpty(15),
        Self::Asking(14),
        Self::Growing,
        Self::Every(29),
        Self::Asking(13),
        Self::AskedAgain,
        Self::WithEmpty(14),
        Self::Every(7),
        Self::Asking(5),
        Self::Every(1),
        Self::Asking(31),
    ];

    /// The calls that measure the samples and ask for coefficients at the end.
    pub fn apply(self, samples: &[i16]) -> Clip {
        let measure = |piece: &[i16]| Step::Measure(piece.to_vec());
        let mut steps = match self {
            Self::Whole => vec![measure(samples)],
            Self::Every(len) => samples.chunks(len).map(measure).collect(),
            Self::WithEmpty(len) => {
                let pairs = samples.chunks(len).flat_map(|piece| [measure(&[]), measure(piece)]);
                pairs.chain([measure(&[])]).collect()
            }
            Self::Asking(len) => {
                samples.chunks(len).flat_map(|piece| [measure(piece), Step::Ask]).collect()
            }
            Self::Growing => growing(samples).into_iter().map(measure).collect(),
            Self::AskedAgain => vec![measure(samples), Step::Ask, Step::Ask],
        };
        steps.push(Step::Ask);
        Clip(steps)
    }
}

/// Pieces of 0, 1, 2, 3 .. samples, the last one shorter.
fn growing(mut samples: &[i16]) -> Vec<&[i16]> {
    let mut pieces = vec![];
    while !samples.is_empty() {
        let (piece, rest) = samples.split_at(pieces.len().min(samples.len()));
        pieces.push(piece);
        samples = rest;
    }
    pieces
}
