//! The loop that a clip is encoded with: the one that is asked for, or that of the WAV file.

use crate::args::Args;
use crate::console::Console;
use crate::failure::Failure;
use crate::loops::Span;
use crate::place::Place;
use crate::text::{count, shown};
use crate::wav::{Clip, Sampler};
use std::ffi::OsStr;

/// Which loop is wanted.
#[derive(Clone, Copy, Debug, PartialEq)]
pub enum Wish {
    None,
    Between(Place, Place),
    OfWav,
}

/// The loop of a clip, and the smpl chunk where it is from one.
#[derive(Clone, Copy, Debug, Default, PartialEq, Eq)]
pub struct Found {
    pub span: Option<Span>,
    sampler: Option<Sampler>,
}

impl Wish {
    /// The options --loop and --wav-loop.
    pub fn of(args: &Args) -> Result<Self, Failure> {
        match (args.value("--loop"), args.has("--wav-loop")) {
            (None, false) => Ok(Wish::None),
            (None, true) if args.has("--raw") => {
                Err(Failure::usage("--wav-loop goes with WAV files: with --raw there is --loop"))
            }
            (None, true) => Ok(Wish::OfWav),
            (Some(_), true) => Err(Failure::usage("--loop and --wav-loop: give one of the two")),
            (Some(value), false) => between(value),
        }
    }

    /// The loop of this clip.
    pub fn found(
        self,
        name: &str,
        clip: &Clip,
        many: bool,
        console: &Console,
    ) -> Result<Found, Failure> {
        let span = match self {
            Wish::OfWav => return of_wav(name, clip.sampler, many, console),
            Wish::None => None,
            Wish::Between(start, end) => {
                Some(Span { start: start.sample(clip.rate), end: end.sample(clip.rate) })
            }
        };
        let left_out = clip.sampler.and_then(|sampler| left_out(&sampler, span.is_none()));
        if let Some(words) = left_out {
            console.note(format!("{name}: {words}"));
        }
        Ok(Found { span, sampler: None })
    }
}

/// START,END.
fn between(value: &OsStr) -> Result<Wish, Failure> {
    let places = |text: &str| {
        let (start, end) = text.split_once(',')?;
        Some(Wish::Between(Place::of(start.trim())?, Place::of(end.trim())?))
    };
    value.to_str().and_then(places).ok_or_else(|| {
        let value = shown(value);
        Failure::usage(format!(
            "--loop: '{value}' is not START,END: two samples' numbers or times (12.5s or 1:02.5)"
        ))
    })
}

/// The loop of a WAV file. Where it has none, that is a note among many files, and else a failure.
fn of_wav(
    name: &str,
    sampler: Option<Sampler>,
    many: bool,
    console: &Console,
) -> Result<Found, Failure> {
    match sampler.and_then(|sampler| sampler.forward) {
        Some(forward) => Ok(Found { span: Some(forward.span()), sampler }),
        None if many => {
            console.note(format!("{name}: {}: it is encoded without one", none(sampler)));
            Ok(Found::default())
        }
        None => {
            Err(Failure::input(name, format!("{}: --wav-loop has none to take", none(sampler))))
        }
    }
}

/// Why a WAV file has no loop to take.
fn none(sampler: Option<Sampler>) -> String {
    match sampler.map(|sampler| sampler.loops) {
        None => "it has no loop (no smpl chunk)".into(),
        Some(0) => "it has no loop (its smpl chunk has none)".into(),
        Some(1) => "its loop is not played forwards (smpl chunk)".into(),
        Some(more) => format!("none of its {} loops is played forwards (smpl chunk)", count(more)),
    }
}

/// What is said of the loops of a WAV file that are not taken, and of the way to take one where no other is asked for.
fn left_out(sampler: &Sampler, ask: bool) -> Option<String> {
    let way = match (sampler.forward, sampler.loops) {
        (Some(_), 1) if ask => ": --wav-loop takes it",
        (Some(_), _) if ask => ": --wav-loop takes the first that is played forwards",
        _ => "",
    };
    sampler.left_out().map(|words| words + way)
}

impl Found {
    pub fn words(&self) -> String {
        let from = self.sampler.and_then(|sampler| sampler.taken()).unwrap_or_default();
        self.span.map(|span| format!("; loop {}{from}", span.words())).unwrap_or_default()
    }
}
