//! `check`: whether an image opens and plays, and else what is wrong.

use crate::args::Args;
use crate::command::{Command, Many};
use crate::console::{Console, Words};
use crate::dsp::NO_IMAGE;
use crate::failure::{Failure, Status};
use crate::files::{self, Job};
use crate::findings::{Finding, findings};
use crate::image_bytes;
use crate::input::ImageFile;
use crate::json::{Json, path_fields, refusal_fields};
use crate::loops::{self, Looped};
use crate::options::{JOBS, flag};
use crate::paint::{Colour, Paint, Stream};
use crate::seams::{self, Seam};
use crate::text::{clip_length, count, counted};
use doilycairn::{Image, Refusal};
use std::io::{self, Write};

/// Findings that are told in words.
const TOLD: usize = 10;

pub const COMMAND: Command = Command {
    name: "check",
    operands: &["IN.dspc"],
    many: Many::Inputs,
    summary: "whether an image is sound, and else what is wrong",
    about: "Opens and plays the image, or says by number and in words what is wrong, in which block, and which bytes look so. Of an \
        image that plays it also says at which edges of blocks a click may be heard: where a block's stored history is not what the \
        block before it leaves; and whether one may be heard where the loop begins anew: where its stored history is not what is played \
        before its start.",
    options: &[flag("--strict", "exit status 1 where a click may be heard, too"), JOBS],
    notes: "Exit status 0: it opens and plays. 1: it does not, or with --strict it has a click.",
    run,
};

fn run(args: &Args, console: &Console) -> Result<Status, Failure> {
    files::inputs(args, console, |job, console| one(args, job, console))
}

fn one(args: &Args, job: &Job, console: &Console) -> Result<Status, Failure> {
    let file = ImageFile::read(job.input)?;
    match tested(&file.bytes) {
        Ok(sound) => told(job, &file, &sound, args.has("--strict"), console),
        Err(refusal) => damaged(job, &file, refusal, console),
    }
}

/// An image that opens and plays, and where it may click.
struct Sound<'a> {
    image: Image<'a>,
    seams: Vec<Seam>,
    looped: Option<Looped>,
}

/// Opens and plays.
fn tested(bytes: &[u8]) -> Result<Sound<'_>, Refusal> {
    let image = Image::open(bytes)?;
    Ok(Sound { image, seams: seams::seams(&image)?, looped: Looped::of(&image) })
}

impl Sound<'_> {
    /// What is said of clicks.
    fn clicks(&self) -> impl Iterator<Item = String> {
        let blocks = seams::words(&self.seams, self.image.head().blocks);
        blocks.into_iter().chain(self.looped.and_then(|looped| looped.click()))
    }
}

/// Says that it opens and plays, and where it may click.
fn told(
    job: &Job,
    file: &ImageFile,
    sound: &Sound,
    strict: bool,
    console: &Console,
) -> Result<Status, Failure> {
    let head = sound.image.head();
    let after = file.after(image_bytes::size(&sound.image));
    let mut fields = path_fields("input", "input_hex", job.input);
    fields.push(("sound", Json::Bool(true)));
    fields.extend(refusal_fields(None));
    fields.extend([
        ("bytes_after", Json::Whole(after as i64)),
        ("loop", sound.looped.map_or(Json::Null, |looped| looped.json(head.rate))),
        ("clicks", Json::list(sound.seams.iter().map(Seam::json))),
    ]);
    let no = strict && sound.clicks().next().is_some();
    let status = if no { Status::No } else { Status::Done };
    console.answer(status, fields, Words::Status, |out| {
        let paint = Paint::of(Stream::Out);
        let clip = clip_length(head.total, head.rate);
        let blocks = counted(head.blocks, "block", "blocks");
        let good = paint.text(Colour::Good, "opens and plays");
        let points = loops::after(sound.looped.map(|looped| looped.points));
        writeln!(out, "{}: {good}: {clip} in {blocks}{points}", file.name)?;
        for words in sound.clicks() {
            writeln!(out, "  {}: {words}", paint.text(Colour::Warning, "clicks"))?;
        }
        match after {
            0 => Ok(()),
            _ => writeln!(out, "  {} after the image", counted(after, "byte", "bytes")),
        }
    })
}

/// Says what is wrong.
fn damaged(
    job: &Job,
    file: &ImageFile,
    refusal: Refusal,
    console: &Console,
) -> Result<Status, Failure> {
    let found = || all_findings(&file.bytes, refusal);
    let mut fields = path_fields("input", "input_hex", job.input);
    fields.push(("sound", Json::Bool(false)));
    fields.extend(refusal_fields(Some(refusal)));
    fields.extend([
        ("message", Json::text(refusal.message())),
        ("findings", Json::list(found().map(finding_json))),
    ]);
    console.answer(Status::No, fields, Words::Status, |out| {
        let words = Paint::of(Stream::Out).text(Colour::Bad, &verdict(refusal, found().next()));
        writeln!(out, "{}: {words}", file.name)?;
        if file.is_dsp() {
            writeln!(out, "  {NO_IMAGE}")?;
        }
        tell(found(), out)
    })
}

/// What looks wrong in the head or the table, or the pair that cannot be played.
fn all_findings(bytes: &[u8], refusal: Refusal) -> Box<dyn Iterator<Item = Finding> + '_> {
    if refusal != Refusal::LowestPair {
        return Box::new(findings(bytes));
    }
    let pairs = bytes[16..48].chunks(4).enumerate();
    let lowest = pairs.filter(|(_, pair)| *pair == [0x80, 0, 0x80, 0]);
    let finding = move |(i, _): (usize, &[u8])| Finding {
        refusal,
        byte: 16 + 4 * i,
        words: format!("pair {i} of the coefficients is -32,768 twice"),
    };
    Box::new(lowest.map(finding))
}

fn finding_json<'a>(finding: Finding) -> Json<'a> {
    let mut fields = vec![("byte", Json::Whole(finding.byte as i64))];
    fields.extend(refusal_fields(Some(finding.refusal)));
    fields.push(("message", Json::text(finding.words)));
    Json::Object(fields)
}

/// The library's verdict; where an entry is bad, in the words of the first finding.
fn verdict(refusal: Refusal, first: Option<Finding>) -> String {
    let said = first.and_then(|first| first.entry().map(|entry| (entry, first.words)));
    match said {
        Some((entry, words)) => format!("{entry}: {words} (refusal {})", refusal.number()),
        None => refusal.to_string(),
    }
}

/// What was found; only the byte, where the verdict has the words.
fn tell(mut found: impl Iterator<Item = Finding>, out: &mut dyn Write) -> io::Result<()> {
    for (i, finding) in found.by_ref().take(TOLD).enumerate() {
        match (i, finding.entry()) {
            (0, Some(_)) => writeln!(out, "  at byte {}", count(finding.byte as u64))?,
            _ => writeln!(out, "  {finding}")?,
        }
    }
    match found.count() {
        0 => Ok(()),
        more => writeln!(out, "  and {} more; --json lists all", count(more as u64)),
    }
}
