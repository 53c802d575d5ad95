//! Encoding a clip that is in memory, a piece at a time.

use crate::console::Console;
use crate::failure::Failure;
use crate::loops::Span;
use crate::memory;
use crate::progress::Progress;
use crate::text::{count, counted};
use doilycairn::{Coefficients, Encoder, History, MAX_PAIR_SUM, Measure, Refusal, Start};

/// Samples of a piece.
const PIECE: usize = 1 << 15;

/// The default block size: a block is a third of a second at 44,100 Hz, and the table of blocks adds 0.2 % to the image.
pub const BLOCK_SIZE: u32 = 8192;

/// What to encode with.
#[derive(Clone, Copy)]
pub struct Wanted {
    pub rate: u32,
    pub block_size: u32,
    pub gain: u16,
    /// None to measure them.
    pub coefficients: Option<Coefficients>,
    pub history: History,
    pub looped: Option<Span>,
}

/// Encodes a clip.
pub fn encode(
    name: &str,
    clip: &[i16],
    wanted: &Wanted,
    console: &Console,
) -> Result<Encoder, Failure> {
    let total = u32::try_from(clip.len()).unwrap_or(u32::MAX);
    let Wanted { rate, block_size, gain, history, .. } = *wanted;
    let coefficients = wanted.coefficients.unwrap_or_default();
    let looped = wanted.looped.map(Span::points);
    let mut start = Start { total, rate, block_size, gain, coefficients, history, looped };
    if wanted.coefficients.is_none() {
        // What would be refused after measuring is refused before it.
        started(name, &start, wanted)?;
        start.coefficients = measure(name, clip, console)?;
    }
    let mut encoder = started(name, &start, wanted)?;
    feed(&mut encoder, clip, console).map_err(|refusal| refused(name, refusal, &start, wanted))?;
    Ok(encoder)
}

fn started(name: &str, start: &Start, wanted: &Wanted) -> Result<Encoder, Failure> {
    let image = memory::zeros(start.image_size().unwrap_or(0))?;
    Encoder::start_in(start, image).map_err(|refusal| refused(name, refusal, start, wanted))
}

fn measure(name: &str, clip: &[i16], console: &Console) -> Result<Coefficients, Failure> {
    let refused = |refusal| Failure::refused(name, refusal);
    let mut progress = Progress::new(console, "measuring", clip.len());
    let mut store = memory::zeros(doilycairn::store_size(clip.len() as u32))?;
    let mut measure = Measure::with_store(&mut store[..]);
    for (i, piece) in clip.chunks(PIECE).enumerate() {
        measure.process(piece).map_err(refused)?;
        progress.at(i * PIECE + piece.len());
    }
    progress.last_step("choosing coefficients");
    measure.coefficients().map_err(refused)
}

fn feed(encoder: &mut Encoder, clip: &[i16], console: &Console) -> Result<(), Refusal> {
    let mut progress = Progress::new(console, "encoding", clip.len());
    for (i, piece) in clip.chunks(PIECE).enumerate() {
        encoder.feed(piece)?;
        progress.at(i * PIECE + piece.len());
    }
    encoder.close()
}

/// A refusal, with what was asked for.
fn refused(name: &str, refusal: Refusal, start: &Start, wanted: &Wanted) -> Failure {
    let failure = Failure::refused(name, refusal);
    match (refusal, wanted.looped) {
        (Refusal::BadSampleCount, _) => failure.with(format!("; it has {}", count(start.total))),
        (Refusal::CoefficientOutside, _) => failure.with(outside(&start.coefficients)),
        (Refusal::LoopOutside, Some(span)) => {
            let has = counted(start.total, "sample", "samples");
            failure.with(format!("; it is {}, and the clip has {has}", span.words()))
        }
        _ => failure,
    }
}

/// The first pair with |c0| + |c1| above the limit.
fn outside(coefficients: &Coefficients) -> String {
    let sum = |(c0, c1): (i16, i16)| u32::from(c0.unsigned_abs()) + u32::from(c1.unsigned_abs());
    let words = |(i, pair): (usize, (i16, i16))| {
        let (c0, c1) = (count(pair.0), count(pair.1));
        format!("; pair {i} of 0 to 7 is {c0} and {c1}, which makes {}", count(sum(pair)))
    };
    let mut pairs = coefficients.pairs().into_iter().enumerate();
    pairs.find(|(_, pair)| sum(*pair) > MAX_PAIR_SUM).map(words).unwrap_or_default()
}
