//! Export, as change 6/13 of document 02 says it, read plainly; blocks are played and joined by the Rust.

use crate::file::{File, Header};
use clip_list::Loop;
use image_list::LoopEntry;
use image_list::reader::{Entry, Opened, Refused, open};
use oracle::{FrameContext, decode, join_all, sample_to_address};

/// "35, for export, when a later block's history isn't what the block before leaves": the first such block.
fn test_histories(opened: &Opened) -> Result<(), Refused> {
    for (k, pair) in opened.entries.windows(2).enumerate() {
        if leaves(opened, &pair[0]) != pair[1].context.last_samples {
            return Err(Refused { code: 35, block: k as u32 + 1 });
        }
    }
    Ok(())
}

/// The history after a block, played from its own entry.
fn leaves(opened: &Opened, entry: &Entry) -> [i16; 2] {
    let body = opened.body(entry);
    decode(body, entry.nibbles, &opened.coefficients, entry.context).1.last_samples
}

/// The flag, both addresses and the context: zeros without a loop.
fn loop_fields(looped: Option<LoopEntry>) -> (u16, [u32; 2], FrameContext) {
    let Some(LoopEntry { looped: Loop { start, end }, context }) = looped else {
        return (0, [0; 2], FrameContext::default());
    };
    (1, [start, end - 1].map(|sample| sample_to_address(sample as usize) as u32), context)
}

/// The header: the nibble count is "the sum of the block lengths".
fn header(opened: &Opened) -> Header {
    let (flag, [start, last], looped) = loop_fields(opened.looped);
    Header {
        total: opened.total,
        nibbles: opened.entries.iter().map(|entry| entry.nibbles as u32).sum(),
        rate: opened.rate,
        flag,
        zero: 0,
        start,
        last,
        two: 2,
        coefficients: opened.coefficients,
        gain: opened.gain,
        first: opened.entries[0].context,
        looped,
        rest: [0; 22],
    }
}

/// The file of an image, or why it is refused before the room is asked for: 15, 20 to 22, 24, 13, "35 .. between 13 and 14".
pub fn export(image: &[u8]) -> Result<Vec<u8>, Refused> {
    let opened = open(image)?;
    opened.test_pairs()?;
    test_histories(&opened)?;
    let bodies = opened.entries.iter().map(|entry| opened.body(entry));
    let bodies = join_all(bodies, &opened.coefficients);
    Ok(File { header: header(&opened), bodies }.bytes())
}

/// The same with a room: "too short an output is 14".
pub fn export_to(image: &[u8], room: usize) -> Result<Vec<u8>, Refused> {
    let file = export(image)?;
    if room < file.len() { Err(Refused::by(14)) } else { Ok(file) }
}
