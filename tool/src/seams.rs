//! The edges of blocks: whether a block goes on from what the block before it leaves, or may click.

use crate::json::Json;
use crate::text::{count, counted};
use doilycairn::{Image, Refusal};

/// A block whose stored history is not what the block before it leaves.
#[derive(Clone, Copy, Debug, PartialEq, Eq)]
pub struct Seam {
    pub block: u32,
    /// Its first sample.
    pub sample: u32,
    /// The history in its entry, the newest first.
    pub stored: [i16; 2],
    /// What the block before it leaves.
    pub left: [i16; 2],
}

impl Seam {
    /// How far apart the two are.
    pub fn off(&self) -> u16 {
        off(self.stored, self.left)
    }

    pub fn json<'a>(&self) -> Json<'a> {
        Json::Object(vec![
            ("block", Json::Whole(self.block.into())),
            ("sample", Json::Whole(self.sample.into())),
            ("history", Json::numbers(self.stored)),
            ("left", Json::numbers(self.left)),
        ])
    }
}

/// How far apart two histories are.
pub fn off(a: [i16; 2], b: [i16; 2]) -> u16 {
    a[0].abs_diff(b[0]).max(a[1].abs_diff(b[1]))
}

/// Plays the blocks in turn, and gives the seams that are off.
pub fn seams(image: &Image) -> Result<Vec<Seam>, Refusal> {
    let (mut found, mut left, mut sample) = (vec![], None, 0);
    let mut played = vec![];
    for (k, block) in image.blocks().enumerate() {
        let stored = block.context.last_samples;
        if let Some(left) = left.filter(|left| *left != stored) {
            found.push(Seam { block: k as u32, sample, stored, left });
        }
        played.resize(block.sample_count(), 0);
        left = Some(block.play(&mut played)?.context.last_samples);
        sample += played.len() as u32;
    }
    Ok(found)
}

/// What is said of them: how many, and the one that is most off.
pub fn words(seams: &[Seam], blocks: u32) -> Option<String> {
    let most = seams.iter().rev().max_by_key(|seam| seam.off())?;
    let [newest, older] = most.stored;
    Some(format!(
        "at {} of {} the stored history is not what the block before leaves, and a click may be heard; \
         most at block {}, sample {}: {newest},{older} and not {},{}",
        count(seams.len() as u64),
        counted(blocks - 1, "block edge", "block edges"),
        count(most.block),
        count(most.sample),
        most.left[0],
        most.left[1]
    ))
}
