//! The loop of the clip, any number of times over; the samples before it come first where that is asked for.

use super::part::Part;
use crate::args::Args;
use crate::console::Console;
use crate::failure::Failure;
use crate::input::ImageFile;
use crate::json::{Fields, Json};
use crate::loops;
use crate::memory;
use crate::progress::Progress;
use crate::text::{count, counted};
use crate::wav;
use doilycairn::{Image, Loop};
use std::io::{self, Write};

/// How many samples are written at once: turns of short loops are gathered.
const GATHERED: u32 = 1 << 16;

/// The options --loop and --lead-in.
#[derive(Clone, Copy, Debug, PartialEq, Eq)]
pub struct Asked {
    times: u32,
    lead_in: bool,
}

impl Asked {
    /// Where --loop is given.
    pub fn of(args: &Args) -> Result<Option<Self>, Failure> {
        let lead_in = args.has("--lead-in");
        let Some(times) = args.number("--loop", 0..=u64::from(u32::MAX))? else {
            return match lead_in {
                true => Err(Failure::usage("--lead-in goes with --loop TIMES")),
                false => Ok(None),
            };
        };
        match ["--block", "--from", "--count"].into_iter().find(|name| args.has(name)) {
            Some(other) => Err(Failure::usage(format!("--loop and {other}: give one of the two"))),
            None => Ok(Some(Self { times: times as u32, lead_in })),
        }
    }
}

/// Turns of a loop, with room for what is written at once.
pub struct Turns {
    points: Loop,
    times: u32,
    lead_in: Part,
    room: Vec<i16>,
}

impl Turns {
    /// The turns that are asked for, of an image that plays and has a loop. A WAV file has room for so many samples and no more.
    pub fn of(
        asked: Asked,
        headed: bool,
        file: &ImageFile,
        image: &Image,
    ) -> Result<Self, Failure> {
        image.play_loop_into(0, &mut []).map_err(|refusal| file.refused(refusal))?;
        let Some(points) = image.looped() else {
            return Err(Failure::input(&file.name, "it has no loop: --loop has none to play"));
        };
        let lead_in = Part { first: 0, count: if asked.lead_in { points.start } else { 0 } };
        let mut turns = Self { points, times: asked.times, lead_in, room: vec![] };
        if headed && turns.samples() > wav::MOST_SAMPLES.into() {
            return Err(turns.too_many(file));
        }
        turns.room = memory::zeros(turns.gathered().max(lead_in.at_once()) as usize)?;
        Ok(turns)
    }

    /// Samples of a turn.
    fn each(&self) -> u32 {
        self.points.end - self.points.start
    }

    /// Samples of all turns, and of what comes before.
    pub fn samples(&self) -> u64 {
        u64::from(self.lead_in.count) + u64::from(self.times) * u64::from(self.each())
    }

    /// Samples that are written at once: of one turn, or of as many as are gathered.
    fn gathered(&self) -> u32 {
        self.each() * (GATHERED / self.each()).max(1).min(self.times)
    }

    fn too_many(&self, file: &ImageFile) -> Failure {
        let most = (wav::MOST_SAMPLES - self.lead_in.count) / self.each();
        Failure::usage(format!(
            "--loop: '{}' is not a number from 0 to {}: a turn of {} has {}, and a WAV file up to {}; --raw has no limit",
            self.times,
            count(most),
            file.name,
            counted(self.each(), "sample", "samples"),
            count(wav::MOST_SAMPLES)
        ))
    }

    /// Plays them. Every turn begins from the stored context and is like the first: what is gathered is played once, and written again and again.
    pub fn write(
        &mut self,
        image: &Image,
        out: &mut dyn Write,
        console: &Console,
    ) -> io::Result<()> {
        self.lead_in.write(image, &mut self.room, out, console)?;
        let (each, gathered) = (self.each(), self.gathered() as usize);
        let turns = &mut self.room[..gathered];
        image.play_loop_into(gathered as u32 / each, turns).map_err(io::Error::other)?;
        let mut left = u64::from(self.times) * u64::from(each);
        let all = left as usize;
        let mut progress = Progress::new(console, "decoding", all);
        while left > 0 {
            let piece = left.min(gathered as u64) as usize;
            wav::write_samples(&turns[..piece], out)?;
            left -= piece as u64;
            progress.at(all - left as usize);
        }
        Ok(())
    }

    pub fn fields(&self, rate: u32) -> Fields<'static> {
        vec![
            ("loop", loops::json(Some(self.points), rate)),
            ("times", Json::Whole(self.times.into())),
            ("lead_in", Json::Whole(self.lead_in.count.into())),
        ]
    }

    /// In words.
    pub fn words(&self) -> String {
        let samples = counted(self.samples(), "sample", "samples");
        let turns = counted(self.times, "turn", "turns");
        let points = loops::words(self.points);
        match self.lead_in.count {
            0 => format!("{samples}, {turns} of the loop {points}"),
            before => {
                format!("{samples}, {} before the loop and {turns} of it {points}", count(before))
            }
        }
    }
}
