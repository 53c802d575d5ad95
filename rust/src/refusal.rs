//! Why a call is refused.

use std::error::Error;
use std::fmt;

/// Why a call is refused: the first test that failed. A refused call alters no buffer and no state.
///
/// What is wrong in an image's table is told by [`BadOffset`](Self::BadOffset), [`BadLength`](Self::BadLength) and
/// [`BadHeader`](Self::BadHeader), with the number of the block whose entry is bad. Entries are tested in rising order, each for
/// these three in that sequence, and the first bad one is named. After those of the blocks comes the loop's, for [`BadLoop`](Self::BadLoop).
/// [`OtherHistory`](Self::OtherHistory) names a block, too.
///
/// ```
/// use doilycairn::{Coefficients, Encoder, History, Image, Refusal, Start};
///
/// let start = Start {
///     total: 15,
///     rate: 32_000,
///     block_size: 8,
///     gain: 0,
///     coefficients: Coefficients([0; 16]),
///     history: History::default(),
///     looped: None,
/// };
/// let mut encoder = Encoder::start(&start)?;
/// encoder.feed(&[0; 15])?;
/// encoder.close()?;
///
/// let (_, mut bytes) = encoder.into_parts();
/// bytes[79] ^= 1; // in the entry of block 1, the last byte of its length
/// let refusal = Image::open(&bytes).unwrap_err();
/// assert_eq!(refusal, Refusal::BadLength { block: 1 });
/// assert_eq!(refusal.block(), Some(1));
/// assert_eq!(
///     refusal.to_string(),
///     "block 1: the entry's length or its zero bytes are wrong (refusal 21)"
/// );
/// # Ok::<(), Refusal>(())
/// ```
#[derive(Clone, Copy, Debug, PartialEq, Eq, Hash, PartialOrd, Ord)]
#[non_exhaustive]
pub enum Refusal {
    /// 1: a state whose numbers no run of calls gives. Not every altered state is found.
    InvalidState,
    /// 2, measuring: more than [`MAX_SAMPLES`](crate::MAX_SAMPLES) samples in all.
    TooManySamples,
    /// 3, measuring, coefficients: fewer numbers in the store than [`store_size`](crate::store_size) says.
    StoreTooShort,
    /// 4, starting, importing: 0 samples, or more than [`MAX_SAMPLES`](crate::MAX_SAMPLES).
    BadSampleCount,
    /// 5, starting, importing: rate 0.
    RateZero,
    /// 6, starting, importing: block size below 8 or above 65,536.
    BadBlockSize,
    /// 7, starting, one frame: |c0| + |c1| above [`MAX_PAIR_SUM`](crate::MAX_PAIR_SUM), 61,440, in a pair.
    CoefficientOutside,
    /// 8, starting, feeding, closing, importing: the buffer is shorter than the image, the loop's entry counted.
    ImageTooShort,
    /// 9, feeding, closing: the clip is closed.
    AlreadyClosed,
    /// 10, feeding: more samples than the clip still lacks.
    PieceTooLong,
    /// 11, closing: the clip still lacks samples.
    Unfinished,
    /// 12, playing bytes: 0 nibbles, or more than two for each byte.
    LengthOutOfRange,
    /// 13, playing, comparing, exporting, importing: a pair of coefficients is -32,768 twice.
    LowestPair,
    /// 14, playing bytes, a block, all or the loop, joining, exporting: the output is too short.
    OutputTooShort,
    /// 15, an image: its first 56 bytes are not a clip's, or bytes are missing.
    BadHead,
    /// 17, an image: the block's number is not below the count of blocks.
    NoSuchBlock,
    /// 18, joining: the two blocks have different coefficients.
    CoefficientsDiffer,
    /// 19, an image: the number of the first sample to play is not below the count of samples.
    NoSuchSample,
    /// 20, an image: an entry's offset is not where its block's body begins.
    BadOffset {
        /// The block whose entry is bad.
        block: u32,
    },
    /// 21, an image: an entry's length is not its block's, or its two zero bytes are not zero.
    BadLength {
        /// The block whose entry is bad.
        block: u32,
    },
    /// 22, an image: an entry's predictor-and-scale is not the first byte of its block's body.
    BadHeader {
        /// The block whose entry is bad, or whose body is.
        block: u32,
    },
    /// 23, starting with a loop: its start is not below its end, or its end is above the count of samples.
    LoopOutside,
    /// 24, an image: its loop's start and end break the rule of 23, its predictor-and-scale is not the first byte of the frame that holds the
    /// start, or its two zero bytes are not zero.
    BadLoop,
    /// 25, importing: the file has fewer than 96 bytes, or fewer after these than its sample count needs.
    FileTooShort,
    /// 26, importing: a field of the file's header is not as it should be.
    BadField,
    /// 35, exporting: a later block's history is not what the block before it leaves.
    OtherHistory {
        /// The first block that does not go on from the one before it.
        block: u32,
    },
}

impl Refusal {
    /// The number of every refusal, rising.
    pub const NUMBERS: &'static [u32] = &[
        1, 2, 3, 4, 5, 6, 7, 8, 9, 10, 11, 12, 13, 14, 15, 17, 18, 19, 20, 21, 22, 23, 24, 25, 26,
        35,
    ];

    /// Its number, the same as in C.
    ///
    /// ```
    /// assert_eq!(doilycairn::Refusal::BadHead.number(), 15);
    /// ```
    pub const fn number(self) -> u32 {
        match self {
            Refusal::InvalidState => 1,
            Refusal::TooManySamples => 2,
            Refusal::StoreTooShort => 3,
            Refusal::BadSampleCount => 4,
            Refusal::RateZero => 5,
            Refusal::BadBlockSize => 6,
            Refusal::CoefficientOutside => 7,
            Refusal::ImageTooShort => 8,
            Refusal::AlreadyClosed => 9,
            Refusal::PieceTooLong => 10,
            Refusal::Unfinished => 11,
            Refusal::LengthOutOfRange => 12,
            Refusal::LowestPair => 13,
            Refusal::OutputTooShort => 14,
            Refusal::BadHead => 15,
            Refusal::NoSuchBlock => 17,
            Refusal::CoefficientsDiffer => 18,
            Refusal::NoSuchSample => 19,
            Refusal::BadOffset { .. } => 20,
            Refusal::BadLength { .. } => 21,
            Refusal::BadHeader { .. } => 22,
            Refusal::LoopOutside => 23,
            Refusal::BadLoop => 24,
            Refusal::FileTooShort => 25,
            Refusal::BadField => 26,
            Refusal::OtherHistory { .. } => 35,
        }
    }

    /// The block whose entry is bad, or does not go on from the block before, where the refusal speaks of one.
    pub const fn block(self) -> Option<u32> {
        match self {
            Refusal::BadOffset { block }
            | Refusal::BadLength { block }
            | Refusal::BadHeader { block }
            | Refusal::OtherHistory { block } => Some(block),
            _ => None,
        }
    }

    /// The refusal of a number. The block counts with 20, 21, 22 and 35 alone.
    ///
    /// ```
    /// use doilycairn::Refusal;
    ///
    /// assert_eq!(Refusal::from_number(20, 3), Some(Refusal::BadOffset { block: 3 }));
    /// assert_eq!(Refusal::from_number(15, 3), Some(Refusal::BadHead));
    /// assert_eq!(Refusal::from_number(16, 3), None);
    /// ```
    pub const fn from_number(number: u32, block: u32) -> Option<Refusal> {
        Some(match number {
            1 => Refusal::InvalidState,
            2 => Refusal::TooManySamples,
            3 => Refusal::StoreTooShort,
            4 => Refusal::BadSampleCount,
            5 => Refusal::RateZero,
            6 => Refusal::BadBlockSize,
            7 => Refusal::CoefficientOutside,
            8 => Refusal::ImageTooShort,
            9 => Refusal::AlreadyClosed,
            10 => Refusal::PieceTooLong,
            11 => Refusal::Unfinished,
            12 => Refusal::LengthOutOfRange,
            13 => Refusal::LowestPair,
            14 => Refusal::OutputTooShort,
            15 => Refusal::BadHead,
            17 => Refusal::NoSuchBlock,
            18 => Refusal::CoefficientsDiffer,
            19 => Refusal::NoSuchSample,
            20 => Refusal::BadOffset { block },
            21 => Refusal::BadLength { block },
            22 => Refusal::BadHeader { block },
            23 => Refusal::LoopOutside,
            24 => Refusal::BadLoop,
            25 => Refusal::FileTooShort,
            26 => Refusal::BadField,
            35 => Refusal::OtherHistory { block },
            _ => return None,
        })
    }

    /// What went wrong, in words alone; as text (`Display`) a refusal has its block and its number too.
    pub const fn message(self) -> &'static str {
        match self {
            Refusal::InvalidState => "the state is not one that a run of calls gives",
            Refusal::TooManySamples => "more than 14,680,064 samples to measure",
            Refusal::StoreTooShort => "the store for records is too short",
            Refusal::BadSampleCount => "a clip has 1 to 14,680,064 samples",
            Refusal::RateZero => "the sample rate is 0",
            Refusal::BadBlockSize => "a block has 8 to 65,536 bytes",
            Refusal::CoefficientOutside => "a pair of coefficients has |c0| + |c1| above 61,440",
            Refusal::ImageTooShort => "the image buffer is too short",
            Refusal::AlreadyClosed => "the clip is closed already",
            Refusal::PieceTooLong => "the piece has more samples than the clip lacks",
            Refusal::Unfinished => "the clip still lacks samples",
            Refusal::LengthOutOfRange => "the length is 0, or more than the bytes hold",
            Refusal::LowestPair => "a pair of coefficients is -32,768 twice",
            Refusal::OutputTooShort => "the output is too short",
            Refusal::BadHead => "not an image: its head is not a clip's, or bytes are missing",
            Refusal::NoSuchBlock => "the image has no block of that number",
            Refusal::CoefficientsDiffer => "the two blocks have different coefficients",
            Refusal::NoSuchSample => "the first sample is not in the clip",
            Refusal::BadOffset { .. } => "the entry's offset is not where the block's body begins",
            Refusal::BadLength { .. } => "the entry's length or its zero bytes are wrong",
            Refusal::BadHeader { .. } => {
                "the entry's predictor-and-scale is not the body's first byte"
            }
            Refusal::LoopOutside => {
                "the loop's start is not below its end, or its end is above the sample count"
            }
            Refusal::BadLoop => {
                "the loop's entry is wrong: its start or end, its header or its zero bytes"
            }
            Refusal::FileTooShort => "the .dsp file lacks bytes of its header or of its samples",
            Refusal::BadField => "a field of the .dsp file's header is not as it should be",
            Refusal::OtherHistory { .. } => {
                "it does not begin from what the block before it leaves, which a .dsp file cannot hold"
            }
        }
    }

    /// What a call's code says, with its answer's `entry`, which is 0 where the answer has none.
    pub(crate) fn check(code: u32, entry: u32) -> Result<(), Refusal> {
        match code {
            0 => Ok(()),
            _ => Err(Refusal::from_number(code, entry)
                .unwrap_or_else(|| panic!("libdoilycairn.a gave code {code}, unknown to this crate: they do not belong together"))),
        }
    }
}

impl fmt::Display for Refusal {
    fn fmt(&self, f: &mut fmt::Formatter) -> fmt::Result {
        if let Some(block) = self.block() {
            write!(f, "block {block}: ")?;
        }
        write!(f, "{} (refusal {})", self.message(), self.number())
    }
}

impl Error for Refusal {}

#[cfg(test)]
mod tests;
