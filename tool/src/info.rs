//! `info`: what an image, or a .dsp file, holds.

use crate::args::Args;
use crate::command::{Command, Many};
use crate::console::{Console, Words};
use crate::distance::Distances;
use crate::dsp;
use crate::failure::{Failure, Status};
use crate::files::{self, Job};
use crate::image_bytes;
use crate::input::{self, ImageFile};
use crate::json::{Fields, Json, path_fields};
use crate::loops::Looped;
use crate::options::{FORCE, IGNORE_LENGTH, JOBS, LENIENT, file, flag};
use crate::output::{Output, What};
use crate::picture;
use crate::seams::{self, Seam};
use crate::survey::Survey;
use crate::tables;
use crate::text::count;
use doilycairn::{FrameContext, Image};
use std::ffi::{OsStr, OsString};

pub const COMMAND: Command = Command {
    name: "info",
    operands: &["IN.dspc"],
    many: Many::Inputs,
    summary: "what an image holds, and how near it is to a WAV file",
    about: "Shows head, blocks, loop, coefficients, how many frames use each predictor and exponent, and where a click may be heard: at \
        edges of blocks, or where the loop begins anew. IN may be a .dsp file, too, which is shown as the image that import makes of it.",
    options: &[
        flag("--blocks", "lists the blocks with their contexts"),
        file(
            "--against",
            "REF.wav",
            "the largest distance from these samples, by exponent, beside the proved bound",
        ),
        flag("--raw", "REF.wav has no head: 16-bit little-endian samples"),
        IGNORE_LENGTH,
        file("--svg", "OUT.svg", "draws a picture"),
        LENIENT,
        JOBS,
        FORCE,
    ],
    notes: "The bound holds for a clip that this library encoded: a sample of a frame with exponent p below 12 is within \
        (3 * 2^p + 1) / 2 of its original, rounded down.",
    run,
};

/// What is known of an image.
pub struct Known<'a> {
    pub name: String,
    pub image: Image<'a>,
    /// Whether it was a .dsp file.
    pub is_dsp: bool,
    /// Bytes of the image, or of the .dsp file up to its last body's end.
    pub size: usize,
    /// Where in it the bodies begin.
    pub bodies_at: usize,
    /// Bytes of the file after that.
    pub after: u64,
    pub survey: Survey,
    /// The context after the last sample; none where the image does not play.
    pub end: Option<FrameContext>,
    pub looped: Option<Looped>,
    /// Edges of blocks where a click may be heard.
    pub seams: Vec<Seam>,
    pub distances: Option<Distances>,
    pub blocks: bool,
}

fn run(args: &Args, console: &Console) -> Result<Status, Failure> {
    let single = ["--against", "--svg"].into_iter().find(|name| args.has(name));
    match single.filter(|_| args.operands.len() > 1) {
        Some(name) => Err(Failure::usage(format!("{name} goes with one image"))),
        None => files::inputs(args, console, |job, console| one(args, job, console)),
    }
}

fn one(args: &Args, job: &Job, console: &Console) -> Result<Status, Failure> {
    let input = job.input;
    let against = args.value("--against");
    let inputs: Vec<OsString> = [input].into_iter().chain(against).map(Into::into).collect();
    input::one_standard_input(&inputs)?;
    let force = args.has("--force");
    let svg =
        args.value("--svg").map(|path| Output::at(What::Picture, path, &inputs, force, console));
    let svg = svg.transpose()?;
    let file = ImageFile::read_clip(input, args, console)?;
    let image = file.open()?;
    let reference = against.map(|path| reference(path, args, &image, console)).transpose()?;
    let refused = |refusal| file.refused(refusal);
    if let Some(place) = svg {
        crate::decode::plays(&image).map_err(refused)?;
        place.write(|out| picture::draw(&file.name, &image, reference.as_deref(), out))?;
    }
    let distances = reference.as_ref().map(|clip| Distances::of(&image, clip)).transpose();
    let known = known(&file, image, distances.map_err(refused)?, args.has("--blocks"));
    let mut fields = path_fields("input", "input_hex", input);
    fields.extend(file.source_fields());
    fields.extend(known.fields());
    console.answer(Status::Done, fields, Words::Asked, |out| tables::write(&known, out))
}

/// Looks at an image.
fn known<'a>(
    file: &ImageFile,
    image: Image<'a>,
    distances: Option<Distances>,
    blocks: bool,
) -> Known<'a> {
    let size = image_bytes::size(&image);
    let (size, bodies_at) = match file.dsp {
        None => (size, image_bytes::bodies_at(&image)),
        Some((size, _)) => (size, dsp::HEADER),
    };
    Known {
        name: file.name.clone(),
        is_dsp: file.dsp.is_some(),
        size,
        bodies_at,
        after: file.after(size),
        survey: Survey::of(&image),
        end: end(&image),
        looped: Looped::of(&image),
        seams: seams::seams(&image).unwrap_or_default(),
        image,
        distances,
        blocks,
    }
}

/// The samples to compare with: as many as the image has.
pub fn reference(
    path: &OsStr,
    args: &Args,
    image: &Image,
    console: &Console,
) -> Result<Vec<i16>, Failure> {
    let clip = input::clip(path, args, None, console)?;
    let head = image.head();
    if clip.samples.len() != head.total as usize {
        let (has, wanted) = (count(clip.samples.len() as u64), count(head.total));
        let words = format!("{has} samples, and the image has {wanted}: they cannot be compared");
        return Err(Failure::input(&input::name(path), words));
    }
    if !args.has("--raw") && clip.rate != head.rate {
        let (has, wanted) = (count(clip.rate), count(head.rate));
        console.note(format!("{}: rate {has}, and the image has {wanted}", input::name(path)));
    }
    Ok(clip.samples)
}

/// The context after the last sample: what a clip that goes on starts from.
pub fn end(image: &Image) -> Option<FrameContext> {
    let last = image.blocks().last()?;
    last.play(&mut vec![0; last.sample_count()]).ok().map(|played| played.context)
}

impl Known<'_> {
    /// The history before the first sample.
    pub fn start(&self) -> [i16; 2] {
        self.image.blocks().next().map_or([0; 2], |block| block.context.last_samples)
    }

    fn fields(&self) -> Fields<'_> {
        let head = self.image.head();
        let end = self.end.map_or(Json::Null, |end| Json::numbers(end.last_samples));
        let distances = self.distances.as_ref().map_or(Json::Null, |d| Json::Object(d.fields()));
        let mut fields = vec![
            ("samples", Json::Whole(head.total.into())),
            ("rate", Json::Whole(head.rate.into())),
            ("seconds", Json::Real(f64::from(head.total) / f64::from(head.rate))),
            ("block_size", Json::Whole(head.block.into())),
            ("blocks", Json::Whole(head.blocks.into())),
            ("frames", Json::Whole(self.survey.frames as i64)),
            ("bytes", Json::Whole(self.size as i64)),
            ("bytes_after", Json::Whole(self.after as i64)),
            ("gain", Json::Whole(head.gain.into())),
            ("loop", self.looped.map_or(Json::Null, |looped| looped.json(head.rate))),
            ("history", Json::numbers(self.start())),
            ("end_history", end),
            ("coefficients", Json::numbers(head.coefficients.0)),
            ("frames_by_predictor", Json::numbers(self.survey.pairs.map(|n| n as i64))),
            ("frames_by_exponent", Json::numbers(self.survey.exponents.map(|n| n as i64))),
            ("clicks", Json::list(self.seams.iter().map(Seam::json))),
            ("against", distances),
        ];
        if self.blocks {
            fields.push(("contexts", self.contexts()));
        }
        fields
    }

    /// The blocks with their contexts.
    fn contexts(&self) -> Json<'_> {
        let body = self.bodies_at as u64;
        let block_size = u64::from(self.image.head().block);
        Json::list(self.image.blocks().enumerate().map(move |(k, block)| {
            Json::Object(vec![
                ("block", Json::Whole(k as i64)),
                ("offset", Json::Whole((body + block_size * k as u64) as i64)),
                ("bytes", Json::Whole(block.bytes.len() as i64)),
                ("nibbles", Json::Whole(block.nibbles.into())),
                ("samples", Json::Whole(block.sample_count() as i64)),
                ("predictor_and_scale", Json::Whole(block.context.predictor_and_scale.into())),
                ("history", Json::numbers(block.context.last_samples)),
            ])
        }))
    }
}
