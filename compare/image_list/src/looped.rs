//! The loop of an image, as change 5/13 of document 02 tests and plays it, read plainly; frames and blocks are played by the Rust.

use crate::reader::{Entry, Opened, Refused, context, long, word};
use clip_list::Loop;
use oracle::{FrameContext, SAMPLES_PER_FRAME, decode};

/// What the entry of a loop says.
#[derive(Debug, Clone, Copy)]
pub struct LoopEntry {
    pub looped: Loop,
    pub context: FrameContext,
}

/// The loop's entry at a place, before the bodies, or code 24: "when the stored start and end break that rule, the stored header byte isn't that
/// frame's or the last two bytes aren't zero".
pub fn loop_entry(bytes: &[u8], place: usize, total: u32) -> Result<LoopEntry, Refused> {
    let looped = Loop { start: long(bytes, place), end: long(bytes, place + 4) };
    if !looped.is_within(total) {
        return Err(Refused::by(24));
    }
    let frame = place + 16 + 8 * (looped.start as usize / SAMPLES_PER_FRAME);
    let context = context(bytes, place + 8);
    let is_header = context.predictor_and_scale == u16::from(bytes[frame]);
    if !is_header || word(bytes, place + 14) != 0 {
        return Err(Refused::by(24));
    }
    Ok(LoopEntry { looped, context })
}

/// The samples that playing a loop gives.
pub type Turns = Result<Vec<i16>, Refused>;

impl Opened<'_> {
    /// Plays the loop "any stated number of times"; "a clip without a loop gives none".
    pub fn play_loop(&self, times: u32, room: usize) -> Turns {
        self.test_pairs()?;
        let Some(entry) = &self.looped else { return Ok(vec![]) };
        let samples = entry.looped.end - entry.looped.start;
        if (room as u64) < u64::from(times) * u64::from(samples) {
            return Err(Refused::by(14));
        }
        Ok(self.turn(entry).repeat(times as usize))
    }

    /// One turn, "beginning .. from the stored context and each later block from its own".
    fn turn(&self, entry: &LoopEntry) -> Vec<i16> {
        let Loop { start, end } = entry.looped;
        let per_block = self.block as usize / 8 * SAMPLES_PER_FRAME;
        let first = start as usize / per_block;
        let mut samples =
            self.rest_of_block(&self.entries[first], start as usize % per_block, entry);
        for later in &self.entries[first + 1..] {
            if samples.len() < (end - start) as usize {
                let body = self.body(later);
                samples.extend(decode(body, later.nibbles, &self.coefficients, later.context).0);
            }
        }
        samples.truncate((end - start) as usize);
        samples
    }

    /// A block from one of its samples on: the rest of that sample's frame from the stored context, and the later frames as one run.
    fn rest_of_block(&self, block: &Entry, sample: usize, entry: &LoopEntry) -> Vec<i16> {
        let (frame, place) = (sample / SAMPLES_PER_FRAME, sample % SAMPLES_PER_FRAME);
        let (_, after) = self.body(block).split_at(8 * frame);
        let (bytes, nibbles) = packed(after, block.nibbles - 16 * frame, place);
        let (mut samples, context) = decode(&bytes, nibbles, &self.coefficients, entry.context);
        if let Some((_, later)) = after.split_at_checked(8).filter(|(_, later)| !later.is_empty()) {
            let context = FrameContext { predictor_and_scale: later[0].into(), ..context };
            let nibbles = block.nibbles - 16 * (frame + 1);
            samples.extend(decode(later, nibbles, &self.coefficients, context).0);
        }
        samples
    }
}

/// The first of some frames packed anew: its header, then its nibbles from a place on; and its length.
fn packed(frames: &[u8], nibbles: usize, place: usize) -> (Vec<u8>, usize) {
    let all = frames.iter().take(8).flat_map(|byte| [byte >> 4, byte & 15]);
    let kept: Vec<u8> = all.take(nibbles.min(16)).skip(2 + place).collect();
    let pairs = kept.chunks(2).map(|pair| pair[0] << 4 | pair.get(1).unwrap_or(&0));
    let bytes = [frames[0]].into_iter().chain(pairs).collect();
    (bytes, 2 + kept.len())
}
