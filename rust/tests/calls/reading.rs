//! Head and table of an image, read by the documents' words alone: why it does not open, if so.

use doilycairn::Refusal;

/// The number in some bytes.
fn number(bytes: &[u8], at: usize, count: usize) -> u64 {
    bytes[at..at + count].iter().fold(0, |number, byte| number << 8 | u64::from(*byte))
}

/// What N, B and the count of loops, 0 or 1, tell: the count of blocks, where the bodies begin, the nibbles and the bytes of all bodies.
struct Sizes {
    total: u64,
    block: u64,
    loops: u64,
    blocks: u64,
    bodies: u64,
    nibbles: u64,
    bytes: u64,
}

fn sizes(total: u64, block: u64, loops: u64) -> Sizes {
    let frames = total.div_ceil(14);
    let last = total - 14 * (frames - 1);
    let blocks = (8 * frames).div_ceil(block);
    Sizes {
        total,
        block,
        loops,
        blocks,
        bodies: 56 + 16 * (blocks + loops),
        nibbles: 16 * (frames - 1) + 2 + last,
        bytes: 8 * (frames - 1) + 1 + last.div_ceil(2),
    }
}

/// The sizes that a head tells, unless something in it is wrong or bytes are missing.
fn head(bytes: &[u8]) -> Option<Sizes> {
    if bytes.len() < 56 || bytes[..4] != *b"DSPC" || number(bytes, 50, 2) > 1 {
        return None;
    }
    let (total, rate, block) = (number(bytes, 4, 4), number(bytes, 8, 4), number(bytes, 12, 4));
    let in_limits = (1..=14_680_064).contains(&total) && (8..=65_536).contains(&block);
    if !in_limits || rate == 0 || block % 8 != 0 {
        return None;
    }
    let sizes = sizes(total, block, number(bytes, 50, 2));
    let size = sizes.bodies + sizes.bytes;
    (number(bytes, 52, 4) == sizes.blocks && size <= bytes.len() as u64).then_some(sizes)
}

/// What is wrong in the entry of a block.
fn entry(bytes: &[u8], sizes: &Sizes, j: u64) -> Option<Refusal> {
    let (at, block) = (56 + 16 * j as usize, j as u32);
    let offset = sizes.bodies + sizes.block * j;
    let length = (2 * sizes.block).min(sizes.nibbles - 2 * sizes.block * j);
    if number(bytes, at, 4) != offset {
        return Some(Refusal::BadOffset { block });
    }
    if number(bytes, at + 4, 4) != length || number(bytes, at + 14, 2) != 0 {
        return Some(Refusal::BadLength { block });
    }
    let header = u64::from(bytes[offset as usize]);
    (number(bytes, at + 8, 2) != header).then_some(Refusal::BadHeader { block })
}

/// What is wrong in the entry of the loop, where there is one.
fn loop_entry(bytes: &[u8], sizes: &Sizes) -> Option<Refusal> {
    if sizes.loops == 0 {
        return None;
    }
    let at = (sizes.bodies - 16) as usize;
    let (start, end) = (number(bytes, at, 4), number(bytes, at + 4, 4));
    if start >= end || end > sizes.total {
        return Some(Refusal::BadLoop);
    }
    let header = u64::from(bytes[(sizes.bodies + 8 * (start / 14)) as usize]);
    let is_bad = number(bytes, at + 8, 2) != header || number(bytes, at + 14, 2) != 0;
    is_bad.then_some(Refusal::BadLoop)
}

/// Why these bytes do not open.
pub fn refusal(bytes: &[u8]) -> Option<Refusal> {
    let Some(sizes) = head(bytes) else { return Some(Refusal::BadHead) };
    let bad_entry = (0..sizes.blocks).find_map(|j| entry(bytes, &sizes, j));
    bad_entry.or_else(|| loop_entry(bytes, &sizes))
}
