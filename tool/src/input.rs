//! Reading clips and images, from files or standard input.

use crate::args::Args;
use crate::codec::BLOCK_SIZE;
use crate::console::Console;
use crate::dsp::{self, Mended};
use crate::failure::Failure;
use crate::findings::findings;
use crate::json::{Fields, Json};
use crate::memory;
use crate::text::{count, shown};
use crate::wav::{self, Clip, Wrong};
use doilycairn::{Image, Refusal};
use std::ffi::{OsStr, OsString};
use std::fs::File;
use std::io::{self, Read};

/// No image is longer (its limit is 25,165,896 bytes); what follows is not kept.
const MOST_BYTES: u64 = 1 << 25;

/// How messages name an input.
pub fn name(path: &OsStr) -> String {
    if path == "-" { "standard input".into() } else { shown(path) }
}

/// Opens a file or standard input; tells the length of a file of bytes.
fn open(path: &OsStr) -> Result<(Box<dyn Read>, Option<u64>), Failure> {
    if path == "-" {
        return Ok((Box::new(io::stdin().lock()), None));
    }
    let file = File::open(path).map_err(|error| Failure::io("read", &name(path), &error))?;
    let length = file.metadata().ok().filter(|data| data.is_file()).map(|data| data.len());
    Ok((Box::new(file), length))
}

/// Only one input can be standard input.
pub fn one_standard_input(paths: &[OsString]) -> Result<(), Failure> {
    match paths.iter().filter(|path| *path == "-").count() {
        0 | 1 => Ok(()),
        _ => Err(Failure::usage("standard input can be read only once")),
    }
}

/// The bytes of an image, before it is opened.
pub struct ImageFile {
    pub name: String,
    /// All bytes, or as many as any image may have.
    pub bytes: Vec<u8>,
    /// Bytes of the file.
    pub length: u64,
    is_named_dsp: bool,
    /// Where it was a .dsp file: its bytes up to the last body's end, and what was mended in it.
    pub dsp: Option<(usize, Vec<Mended>)>,
}

impl ImageFile {
    pub fn read(path: &OsStr) -> Result<Self, Failure> {
        let (mut reader, known) = open(path)?;
        let fail = |error: io::Error| match error.kind() {
            io::ErrorKind::OutOfMemory => {
                memory::short(known.map_or(MOST_BYTES, |length| length.min(MOST_BYTES)))
            }
            _ => Failure::io("read", &name(path), &error),
        };
        let mut bytes = vec![];
        (&mut reader).take(MOST_BYTES).read_to_end(&mut bytes).map_err(fail)?;
        let mut length = known.unwrap_or(0).max(bytes.len() as u64);
        let is_clip = bytes.starts_with(b"DSPC") || dsp::begins(&bytes);
        if known.is_none() && bytes.len() as u64 == MOST_BYTES && is_clip {
            length += io::copy(&mut reader, &mut io::sink()).map_err(fail)?;
        }
        let is_named_dsp = dsp::is_named(path);
        Ok(Self { name: name(path), bytes, length, is_named_dsp, dsp: None })
    }

    /// Reads an image, or a .dsp file, which becomes one in blocks of the default size.
    pub fn read_clip(path: &OsStr, args: &Args, console: &Console) -> Result<Self, Failure> {
        let mut file = Self::read(path)?;
        if file.is_dsp() {
            let lenient = args.has("--lenient");
            let imported = dsp::import(&mut file, BLOCK_SIZE, lenient, console)?;
            file.bytes = imported.image;
            file.dsp = Some((imported.size, imported.mended));
        }
        Ok(file)
    }

    /// Whether it is a .dsp file, by its name or by its contents. An image is known by its mark, whatever its name is.
    pub fn is_dsp(&self) -> bool {
        !self.bytes.starts_with(b"DSPC") && (self.is_named_dsp || dsp::begins(&self.bytes))
    }

    /// Opens it; a refusal comes with the first thing that looks wrong.
    pub fn open(&self) -> Result<Image<'_>, Failure> {
        Image::open(&self.bytes).map_err(|refusal| {
            let first = findings(&self.bytes).next();
            let failure = Failure::refused(&self.name, refusal)
                .with(first.map(|first| format!("; {}", first.at_byte())).unwrap_or_default());
            if self.is_dsp() { failure.with(format!("; {}", dsp::NO_IMAGE)) } else { failure }
        })
    }

    /// Bytes of the file after an image of this size, or after the last body of a .dsp file.
    pub fn after(&self, size: usize) -> u64 {
        let size = self.dsp.as_ref().map_or(size, |(size, _)| *size);
        self.length.saturating_sub(size as u64)
    }

    /// What it was read from, as fields.
    pub fn source_fields<'a>(&self) -> Fields<'a> {
        let (format, mended) = match &self.dsp {
            None => ("dspc", &[][..]),
            Some((_, mended)) => ("dsp", &mended[..]),
        };
        vec![("format", Json::text(format)), ("mended", dsp::mended_json(mended))]
    }

    /// A refusal of this image.
    pub fn refused(&self, refusal: Refusal) -> Failure {
        Failure::refused(&self.name, refusal)
    }
}

/// Reads a clip: a WAV file, or headerless samples with --raw. The rate of headerless samples is 0 where it is not asked for.
pub fn clip(
    path: &OsStr,
    args: &Args,
    raw_rate: Option<u32>,
    console: &Console,
) -> Result<Clip, Failure> {
    let ignore_length = args.has("--ignore-length");
    let (mut reader, known) = open(path)?;
    let clip = match args.has("--raw") {
        true => wav::read_raw(&mut reader, ignore_length).map(|samples| Clip {
            samples,
            rate: raw_rate.unwrap_or(0),
            sampler: None,
            notes: vec![],
        }),
        // A pipe is read to its end only for a loop that may stand there.
        false => wav::read(&mut reader, ignore_length, known.is_some() || args.has("--wav-loop")),
    };
    let clip = clip.map_err(|wrong| unread(path, wrong))?;
    for note in &clip.notes {
        console.note(format!("{}: {note}", name(path)));
    }
    Ok(clip)
}

/// Why a clip cannot be read.
fn unread(path: &OsStr, wrong: Wrong) -> Failure {
    match wrong {
        Wrong::Io(error) => Failure::io("read", &name(path), &error),
        Wrong::Words(words) => Failure::input(&name(path), words),
        Wrong::Memory(bytes) => memory::short(bytes),
        Wrong::TooMany(samples) => {
            let has = samples.map_or("more".into(), count);
            Failure::refused(&name(path), Refusal::BadSampleCount).with(format!("; it has {has}"))
        }
    }
}
