//! Document 01's image, read plainly, its table as changes 4/13 and 5/13 of document 02 test it; its blocks are played by the Rust.

use crate::looped::{LoopEntry, loop_entry};
use block_list::has_lowest_pair;
use clip_list::{block_count, image_size};
use oracle::{Coefficients, FrameContext, address_to_sample, decode};

/// An image that opens.
pub struct Opened<'i> {
    pub total: u32,
    pub rate: u32,
    pub block: u32,
    pub gain: u16,
    pub coefficients: Coefficients,
    pub entries: Vec<Entry>,
    pub looped: Option<LoopEntry>,
    bytes: &'i [u8],
}

/// Why a call on an image is refused.
#[derive(Debug, Clone, Copy, PartialEq)]
pub struct Refused {
    pub code: u8,
    /// With 20, 21 and 22 the block whose entry is bad, with 35 the one that another history stands before, else 0.
    pub block: u32,
}

impl Refused {
    /// A refusal that names no block.
    pub fn by(code: u8) -> Self {
        Self { code, block: 0 }
    }
}

/// What an entry says.
#[derive(Debug, Clone, Copy)]
pub struct Entry {
    pub offset: usize,
    pub nibbles: usize,
    pub context: FrameContext,
}

/// The number of two bytes at a place.
pub fn word(bytes: &[u8], place: usize) -> u16 {
    u16::from_be_bytes([bytes[place], bytes[place + 1]])
}

/// The number of four bytes at a place.
pub fn long(bytes: &[u8], place: usize) -> u32 {
    u32::from(word(bytes, place)) * 65_536 + u32::from(word(bytes, place + 2))
}

/// The context of six bytes at a place.
pub(crate) fn context(bytes: &[u8], place: usize) -> FrameContext {
    let [header, newest, older] = [0, 2, 4].map(|part| word(bytes, place + part));
    FrameContext { predictor_and_scale: header, last_samples: [newest as i16, older as i16] }
}

/// The sizes of section 2, and how many entries follow those of the blocks.
struct Sizes {
    frames: usize,
    last: usize,
    blocks: usize,
    loops: usize,
    whole: usize,
}

fn sizes(total: u32, block: u32, loops: u16) -> Sizes {
    let frames = (total as usize).div_ceil(14);
    let last = total as usize - 14 * (frames - 1);
    let [blocks, whole] =
        [block_count(total, block), image_size(total, block)].map(|size| size as usize);
    let loops = usize::from(loops);
    Sizes { frames, last, blocks, loops, whole: whole + 16 * loops }
}

/// Opens an image, or gives code 15, or 20, 21 or 22 with the first block whose entry is bad: "entries in rising order"; or 24, "after 22".
pub fn open(bytes: &[u8]) -> Result<Opened<'_>, Refused> {
    if bytes.len() < 56 || bytes[..4] != [0x44, 0x53, 0x50, 0x43] {
        return Err(Refused::by(15));
    }
    let (total, rate, block) = (long(bytes, 4), long(bytes, 8), long(bytes, 12));
    let is_block = (8..=65_536).contains(&block) && block % 8 == 0;
    let loops = word(bytes, 50);
    if total == 0 || total > 14_680_064 || rate == 0 || !is_block || loops > 1 {
        return Err(Refused::by(15));
    }
    let sizes = sizes(total, block, loops);
    if long(bytes, 52) as usize != sizes.blocks || bytes.len() < sizes.whole {
        return Err(Refused::by(15));
    }
    let coefficients = std::array::from_fn(|place| word(bytes, 16 + 2 * place) as i16);
    let mut entries = vec![];
    for k in 0..sizes.blocks {
        entries.push(entry(bytes, &sizes, block as usize, k)?);
    }
    let looped = match loops {
        0 => None,
        _ => Some(loop_entry(bytes, 56 + 16 * sizes.blocks, total)?),
    };
    Ok(Opened { total, rate, block, gain: word(bytes, 48), coefficients, entries, looped, bytes })
}

/// The entry of a block: "20 for an offset, 21 for a length or zero bytes, 22 for a predictor-and-scale", "in that sequence".
fn entry(bytes: &[u8], sizes: &Sizes, block: usize, k: usize) -> Result<Entry, Refused> {
    let bad = |code| Err(Refused { code, block: k as u32 });
    let place = 56 + 16 * k;
    let offset = 56 + 16 * (sizes.blocks + sizes.loops) + block * k;
    if long(bytes, place) as usize != offset {
        return bad(20);
    }
    let frames = (block / 8).min(sizes.frames - block / 8 * k);
    let is_last = k + 1 == sizes.blocks;
    let nibbles = if is_last { 16 * (frames - 1) + sizes.last + 2 } else { 16 * frames };
    if long(bytes, place + 4) as usize != nibbles || word(bytes, place + 14) != 0 {
        return bad(21);
    }
    let context = context(bytes, place + 8);
    if context.predictor_and_scale != u16::from(bytes[offset]) {
        return bad(22);
    }
    Ok(Entry { offset, nibbles, context })
}

/// The samples that are played, and the context after them.
pub type Played = Result<(Vec<i16>, FrameContext), Refused>;

impl Opened<'_> {
    /// The entry of a block that there is.
    pub fn entry(&self, k: usize) -> Result<&Entry, Refused> {
        self.entries.get(k).ok_or(Refused::by(17))
    }

    /// The body of a block.
    pub fn body(&self, entry: &Entry) -> &[u8] {
        &self.bytes[entry.offset..][..entry.nibbles.div_ceil(2)]
    }

    /// Plays a block.
    pub fn play(&self, k: usize, room: usize) -> Played {
        let entry = self.entry(k)?;
        self.test_pairs()?;
        if room < address_to_sample(entry.nibbles) {
            return Err(Refused::by(14));
        }
        Ok(decode(self.body(entry), entry.nibbles, &self.coefficients, entry.context))
    }

    /// Plays all blocks: their samples, joined, and the context after the last.
    pub fn play_all(&self, room: usize) -> Played {
        self.test_pairs()?;
        if room < self.total as usize {
            return Err(Refused::by(14));
        }
        let played = (0..self.entries.len()).map(|k| self.play(k, usize::MAX));
        let (samples, contexts): (Vec<_>, Vec<_>) =
            played.collect::<Result<Vec<_>, Refused>>()?.into_iter().unzip();
        Ok((samples.concat(), *contexts.last().unwrap()))
    }

    /// Code 13.
    pub fn test_pairs(&self) -> Result<(), Refused> {
        if has_lowest_pair(&self.coefficients) { Err(Refused::by(13)) } else { Ok(()) }
    }
}
