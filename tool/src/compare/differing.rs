//! What differs between two images, in a fixed order.

use doilycairn::{FrameContext, Head, Image, Loop, Refusal};

/// One thing that differs, with its values in both images.
#[derive(Debug, PartialEq, Eq)]
pub enum Differing {
    Rate([u32; 2]),
    Gain([u16; 2]),
    BlockSize([u32; 2]),
    /// A pair of coefficients.
    Coefficients {
        pair: usize,
        values: [[i16; 2]; 2],
    },
    /// What blocks, of so many, begin after.
    Histories {
        blocks: u32,
        found: Found<[i16; 2]>,
    },
    /// The headers that blocks, of so many, begin with.
    Headers {
        blocks: u32,
        found: Found<u16>,
    },
    Loop([Option<Loop>; 2]),
    /// What the loop begins after.
    LoopHistory([[i16; 2]; 2]),
    /// The header that the loop begins with.
    LoopHeader([u16; 2]),
    /// The counts of samples.
    Total([u32; 2]),
    /// Samples, of so many.
    Samples {
        total: u32,
        found: Found<i16>,
    },
}

/// What differs in two lists: how many, the first of them, and its values.
#[derive(Debug, PartialEq, Eq)]
pub struct Found<T> {
    pub count: u64,
    pub first: u64,
    pub values: [T; 2],
}

impl<T> Found<T> {
    fn of(pairs: impl Iterator<Item = [T; 2]>, differ: impl Fn(&[T; 2]) -> bool) -> Option<Self> {
        let mut found: Option<Self> = None;
        for (i, values) in pairs.enumerate().filter(|(_, values)| differ(values)) {
            found.get_or_insert(Self { count: 0, first: i as u64, values }).count += 1;
        }
        found
    }
}

/// All that differs.
pub fn in_all(first: &Image, second: &Image) -> Result<Vec<Differing>, Refusal> {
    let mut all = in_heads(first.head(), second.head());
    all.extend(in_contexts(first, second));
    all.extend(in_loops(first, second));
    all.extend(in_samples(first, second)?);
    Ok(all)
}

/// What differs of the samples: how many there are, or else which.
pub fn in_samples(first: &Image, second: &Image) -> Result<Option<Differing>, Refusal> {
    let (total, other) = (first.head().total, second.head().total);
    if total != other {
        return Ok(Some(Differing::Total([total, other])));
    }
    let pairs = first.samples()?.zip(second.samples()?).map(<[i16; 2]>::from);
    Ok(Found::of(pairs, unequal).map(|found| Differing::Samples { total, found }))
}

fn unequal<T: PartialEq>([a, b]: &[T; 2]) -> bool {
    a != b
}

/// Headers count without their top bit.
fn other_header([a, b]: &[u16; 2]) -> bool {
    a % 128 != b % 128
}

/// Rate, gain, block size and coefficients.
fn in_heads(first: &Head, second: &Head) -> Vec<Differing> {
    let rate = Some([first.rate, second.rate]).filter(unequal).map(Differing::Rate);
    let gain = Some([first.gain, second.gain]).filter(unequal).map(Differing::Gain);
    let block = Some([first.block, second.block]).filter(unequal).map(Differing::BlockSize);
    let pairs = (0..8).map(|pair| {
        let of = |head: &Head| [0, 1].map(|i| head.coefficients.0[2 * pair + i]);
        (pair, [of(first), of(second)])
    });
    let coefficients = pairs
        .filter(|(_, values)| unequal(values))
        .map(|(pair, values)| Differing::Coefficients { pair, values });
    [rate, gain, block].into_iter().flatten().chain(coefficients).collect()
}

/// What blocks begin from; blocks of another size or of clips of other lengths are not compared.
fn in_contexts(first: &Image, second: &Image) -> Vec<Differing> {
    let (a, b) = (first.head(), second.head());
    if a.total != b.total || a.block != b.block {
        return vec![];
    }
    let pairs = || first.blocks().zip(second.blocks()).map(|(a, b)| [a.context, b.context]);
    let histories = Found::of(pairs().map(histories), unequal);
    let headers = Found::of(pairs().map(headers), other_header);
    let blocks = a.blocks;
    let histories = histories.map(|found| Differing::Histories { blocks, found });
    let headers = headers.map(|found| Differing::Headers { blocks, found });
    histories.into_iter().chain(headers).collect()
}

fn histories(contexts: [FrameContext; 2]) -> [[i16; 2]; 2] {
    contexts.map(|context| context.last_samples)
}

fn headers(contexts: [FrameContext; 2]) -> [u16; 2] {
    contexts.map(|context| context.predictor_and_scale)
}

/// Where the loops are, and what they begin from where there are two.
pub fn in_loops(first: &Image, second: &Image) -> Vec<Differing> {
    let points = Some([first.looped(), second.looped()]).filter(unequal).map(Differing::Loop);
    let contexts = first.loop_context().zip(second.loop_context()).map(<[FrameContext; 2]>::from);
    let history = contexts.map(histories).filter(unequal).map(Differing::LoopHistory);
    let header = contexts.map(headers).filter(other_header).map(Differing::LoopHeader);
    [points, history, header].into_iter().flatten().collect()
}
