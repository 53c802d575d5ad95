//! What of a clip is played.

use super::part::Part;
use super::turns::{Asked, Turns};
use crate::args::Args;
use crate::console::Console;
use crate::failure::Failure;
use crate::input::ImageFile;
use crate::json::{Fields, Json};
use crate::progress::Progress;
use crate::text::{clip_length, count, counted, duration};
use crate::wav;
use doilycairn::{Block, Image};
use std::io::{self, Write};

/// The last block of an image with the most blocks.
const MOST_BLOCK: u64 = doilycairn::MAX_SAMPLES as u64 / 14 - 1;

/// The options.
#[derive(Clone, Copy, Debug, PartialEq, Eq)]
pub enum Choice {
    All,
    Block(u32),
    Part(Part),
    Turns(Asked),
}

impl Choice {
    pub fn of(args: &Args) -> Result<Self, Failure> {
        let block = args.number("--block", 0..=MOST_BLOCK)?;
        Ok(match (Asked::of(args)?, Part::of(args)?, block) {
            (Some(asked), ..) => Choice::Turns(asked),
            (_, Some(part), _) => Choice::Part(part),
            (.., Some(block)) => Choice::Block(block as u32),
            (None, None, None) => Choice::All,
        })
    }

    /// The number of the block that is asked for.
    pub fn block(self) -> Option<u32> {
        match self {
            Choice::Block(block) => Some(block),
            _ => None,
        }
    }
}

/// What is played of an image.
pub enum Chosen<'a> {
    All,
    Block(Block<'a>),
    /// With room for each of its pieces.
    Part(Part, Vec<i16>),
    Turns(Turns),
}

impl<'a> Chosen<'a> {
    /// What is asked for of this image, to be written with a WAV file's head or without.
    pub fn of(
        choice: Choice,
        headed: bool,
        file: &ImageFile,
        image: &Image<'a>,
    ) -> Result<Self, Failure> {
        let chosen = match choice {
            Choice::All => Chosen::All,
            Choice::Block(k) => Chosen::Block(block(file, image, k)?),
            Choice::Part(part) => {
                let part = part.within(file, image)?;
                return Ok(Chosen::Part(part, part.room()?));
            }
            Choice::Turns(asked) => {
                return Turns::of(asked, headed, file, image).map(Chosen::Turns);
            }
        };
        super::plays(image).map_err(|refusal| file.refused(refusal))?;
        Ok(chosen)
    }

    /// How many samples it has.
    pub fn samples(&self, image: &Image) -> u64 {
        match self {
            Chosen::All => image.head().total.into(),
            Chosen::Block(block) => block.sample_count() as u64,
            Chosen::Part(part, _) => part.count.into(),
            Chosen::Turns(turns) => turns.samples(),
        }
    }

    /// Plays it; of a part, tells how many blocks were touched.
    pub fn write(
        &mut self,
        image: &Image,
        out: &mut dyn Write,
        console: &Console,
    ) -> io::Result<u32> {
        match self {
            Chosen::All => write_blocks(image.blocks(), out, console)?,
            Chosen::Block(block) => write_blocks(std::iter::once(*block), out, console)?,
            Chosen::Part(part, room) => return part.write(image, room, out, console),
            Chosen::Turns(turns) => turns.write(image, out, console)?,
        }
        Ok(0)
    }

    /// What is said of a part or of turns alone.
    pub fn fields(&self, touched: u32, rate: u32) -> Fields<'static> {
        match self {
            Chosen::Part(part, _) => vec![
                ("from", Json::Whole(part.first.into())),
                ("blocks_touched", Json::Whole(touched.into())),
            ],
            Chosen::Turns(turns) => turns.fields(rate),
            _ => vec![],
        }
    }

    pub fn words(&self, touched: u32, file: &str, samples: u64, rate: u32) -> String {
        let words = match self {
            Chosen::Part(part, _) => part.words(touched),
            Chosen::Turns(turns) => turns.words(),
            _ => return format!("{} of {file}", clip_length(samples as u32, rate)),
        };
        format!("{words}, of {file} ({} at {} Hz)", duration(samples, rate), count(rate))
    }
}

/// The block asked for.
fn block<'a>(file: &ImageFile, image: &Image<'a>, k: u32) -> Result<Block<'a>, Failure> {
    image.block(k).map_err(|_| {
        let (last, blocks) = (image.head().blocks - 1, image.head().blocks);
        Failure::usage(format!(
            "--block: '{k}' is not a number from 0 to {}: {} has {}",
            count(last),
            file.name,
            counted(blocks, "block", "blocks")
        ))
    })
}

/// Plays blocks.
fn write_blocks<'a>(
    blocks: impl ExactSizeIterator<Item = Block<'a>>,
    out: &mut dyn Write,
    console: &Console,
) -> io::Result<()> {
    let mut progress = Progress::new(console, "decoding", blocks.len());
    let mut played = vec![];
    for (k, block) in blocks.enumerate() {
        played.resize(block.sample_count(), 0);
        block.play(&mut played).map_err(io::Error::other)?;
        wav::write_samples(&played, out)?;
        progress.at(k + 1);
    }
    Ok(())
}
