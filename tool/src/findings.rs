//! What looks wrong in an image that does not open: a help for people, worked out beside the library, which alone decides.

mod looped;
#[cfg(test)]
mod tests;

use crate::image_bytes::{ENTRY, HEAD};
use crate::text::{count, counted};
use doilycairn::{BLOCK_SIZES, MAX_SAMPLES, Refusal, image_size, loop_image_size};
use std::fmt;

/// Something that looks wrong.
#[derive(Debug, PartialEq, Eq)]
pub struct Finding {
    /// The refusal that it calls for; where it is an entry's, with the block.
    pub refusal: Refusal,
    /// Its first byte.
    pub byte: usize,
    pub words: String,
}

impl Finding {
    /// Its byte and its words, where the block or the loop is told already.
    pub fn at_byte(&self) -> String {
        format!("byte {}: {}", count(self.byte as u64), self.words)
    }

    /// Whose entry it is in: a block's, or the loop's; none where it is in the head.
    pub fn entry(&self) -> Option<String> {
        match self.refusal {
            Refusal::BadLoop => Some("loop".into()),
            refusal => refusal.block().map(|block| format!("block {block}")),
        }
    }
}

impl fmt::Display for Finding {
    fn fmt(&self, f: &mut fmt::Formatter) -> fmt::Result {
        match self.entry() {
            Some(entry) => {
                let byte = count(self.byte as u64);
                write!(f, "byte {byte}, {entry}: {}", self.words)
            }
            None => f.write_str(&self.at_byte()),
        }
    }
}

/// All that looks wrong: in the head, or else in the table of blocks and in the loop's entry. They stand in the sequence in which
/// the library tests, so that the first calls for the refusal that it gives. They are made as they are asked for: a long table may
/// have millions.
pub fn findings(bytes: &[u8]) -> impl Iterator<Item = Finding> {
    let in_head = head_findings(bytes);
    let (blocks, loops) = match in_head.is_empty() {
        true => (be32(bytes, 52) as usize, loops(bytes)),
        false => (0, 0),
    };
    let in_entries = (0..blocks).flat_map(|k| entry_findings(bytes, k));
    let of_loop = (0..loops).flat_map(|_| looped::findings(bytes));
    in_head.into_iter().chain(in_entries).chain(of_loop)
}

fn be32(bytes: &[u8], at: usize) -> u32 {
    u32::from_be_bytes([bytes[at], bytes[at + 1], bytes[at + 2], bytes[at + 3]])
}

/// The count of loops, of which an image has none or one.
fn loops(bytes: &[u8]) -> usize {
    u16::from_be_bytes([bytes[50], bytes[51]]).into()
}

/// Where the bodies begin, of a head that is as it should be.
fn bodies_at(bytes: &[u8]) -> usize {
    HEAD + ENTRY * (be32(bytes, 52) as usize + loops(bytes))
}

fn head_findings(bytes: &[u8]) -> Vec<Finding> {
    let mut found: Vec<Finding> = vec![];
    let mut add = |byte, words| found.push(Finding { refusal: Refusal::BadHead, byte, words });
    if bytes.len() < HEAD {
        let has = counted(bytes.len() as u64, "byte", "bytes");
        add(bytes.len(), format!("the file ends after {has}; a head has 56"));
    }
    if let Some(words) = bytes.first_chunk().and_then(mark) {
        add(0, words);
    }
    if bytes.len() < HEAD {
        return found;
    }
    let [total, rate, block, blocks] = [4, 8, 12, 52].map(|at| be32(bytes, at));
    if total == 0 || total > MAX_SAMPLES {
        add(4, format!("{} samples; a clip has 1 to {}", count(total), count(MAX_SAMPLES)));
    }
    if rate == 0 {
        add(8, "the rate is 0".into());
    }
    if !BLOCK_SIZES.contains(&block) || block % 8 != 0 {
        add(
            12,
            format!("blocks of {} bytes; they have 8 to 65,536, a multiple of 8", count(block)),
        );
    }
    let loops = loops(bytes);
    if loops > 1 {
        add(50, format!("{} loops; an image has 0 or 1", count(loops as u64)));
    }
    if block % 8 == 0 {
        found.extend(sizes(bytes.len(), blocks, total, block, loops == 1));
    }
    found
}

/// What is wrong with a mark.
fn mark(mark: &[u8; 4]) -> Option<String> {
    let what = match mark {
        b"DSPC" => return None,
        [0, 0, 0, 0] => "four zeros: a clip that was started and never closed",
        b"RIFF" => "that of a WAV file, which `encode` reads",
        _ => "not an image's",
    };
    let [a, b, c, d] = mark;
    Some(format!("the mark is {a:02x} {b:02x} {c:02x} {d:02x} and not 44 53 50 43 (DSPC): {what}"))
}

/// The count of blocks and the length of the file, against what samples, block size and loop ask for.
fn sizes(len: usize, blocks: u32, total: u32, block: u32, looped: bool) -> Vec<Finding> {
    let (size, more) = match looped {
        false => (image_size(total, block), ""),
        true => (loop_image_size(total, block), " and a loop (bytes 50 and 51)"),
    };
    let (Some(size), mut found) = (size, vec![]) else { return vec![] };
    let mut add = |byte, words| found.push(Finding { refusal: Refusal::BadHead, byte, words });
    let clip = format!("{} samples in blocks of {} bytes", count(total), count(block));
    let wanted = (8 * total.div_ceil(14)).div_ceil(block);
    if blocks != wanted {
        add(52, format!("{} blocks; {clip} make {}", count(blocks), count(wanted)));
    }
    if len < size {
        let missing = counted((size - len) as u64, "byte is", "bytes are");
        add(
            len,
            format!(
                "the file ends; {clip}{more} take {} bytes: {missing} missing",
                count(size as u64)
            ),
        );
    }
    found
}

/// What is wrong with the entry of block `k`, of a head that is as it should be.
fn entry_findings(bytes: &[u8], k: usize) -> Vec<Finding> {
    let [total, block] = [4, 12].map(|at| be32(bytes, at) as usize);
    let frames = total.div_ceil(14).saturating_sub(k * block / 8).min(block / 8);
    let samples = (total - 14 * k * (block / 8)).min(14 * frames);
    entry(bytes, k, bodies_at(bytes) + block * k, samples + 2 * frames)
}

/// What is wrong with an entry that should have this offset and this length, by rising refusal.
fn entry(bytes: &[u8], k: usize, offset: usize, nibbles: usize) -> Vec<Finding> {
    let (at, block) = (HEAD + ENTRY * k, k as u32);
    let tests = [
        (
            Refusal::BadOffset { block },
            at,
            number("offset", be32(bytes, at), offset, looped::otherwise(bytes, k, offset)),
        ),
        (
            Refusal::BadLength { block },
            at + 4,
            number("length", be32(bytes, at + 4), nibbles, " nibbles"),
        ),
        (Refusal::BadLength { block }, at + 14, zero_bytes(&bytes[at + 14..at + 16])),
        (Refusal::BadHeader { block }, at + 8, header(bytes, at + 8, "its body", offset)),
    ];
    tests.into_iter().filter_map(found).collect()
}

/// A test of a field, by its refusal and its first byte.
type Test = (Refusal, usize, Option<String>);

fn found((refusal, byte, words): Test) -> Option<Finding> {
    words.map(|words| Finding { refusal, byte, words })
}

/// What is wrong with an entry's number, with what is to be said after it.
fn number(name: &str, has: u32, wanted: usize, more: &str) -> Option<String> {
    let words = || format!("its {name} is {} and not {}{more}", count(has), count(wanted as u64));
    (has as usize != wanted).then(words)
}

/// What is wrong with an entry's zero bytes.
fn zero_bytes(has: &[u8]) -> Option<String> {
    (has != [0, 0])
        .then(|| format!("its zero bytes are {:02x} {:02x} and not 00 00", has[0], has[1]))
}

/// What is wrong with an entry's header at this byte, which is that of a frame at this offset.
fn header(bytes: &[u8], at: usize, frame: &str, offset: usize) -> Option<String> {
    let (high, low, first) = (bytes[at], bytes[at + 1], bytes[offset]);
    let words = || {
        let place = count(offset as u64);
        format!(
            "its header is {high:02x} {low:02x} and {frame} at byte {place} begins with {first:02x}"
        )
    };
    ([high, low] != [0, first]).then(words)
}
