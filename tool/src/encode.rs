//! `encode`: from samples to an image.

mod looped;

use crate::args::Args;
use crate::codec::{self, Wanted};
use crate::command::{Command, Many};
use crate::console::{Console, Words};
use crate::distance::Distances;
use crate::failure::{Failure, Status};
use crate::files::{self, Job};
use crate::framing::{self, Framed};
use crate::input;
use crate::json::{Fields, Json, path_fields};
use crate::loops;
use crate::options::{BLOCK_SIZE, FORCE, IGNORE_LENGTH, INTO, JOBS, RAW, file, flag, value};
use crate::output::{Output, What};
use crate::settings;
use crate::text::{clip_length, count, counted};
use doilycairn::{Encoder, EncoderState, Image, Refusal};
use looped::{Found, Wish};
use std::ffi::{OsStr, OsString};
use std::path::Path;

pub const COMMAND: Command = Command {
    name: "encode",
    operands: &["IN.wav", "OUT.dspc"],
    many: Many::Into,
    summary: "from samples to an image",
    about: "Measures the clip, encodes it and writes its image.",
    options: &[
        INTO,
        JOBS,
        BLOCK_SIZE,
        value("--gain", "NUMBER", "kept in the image, 0 to 65,535; 0 if not given"),
        value("--history", "NEWEST,OLDER", "the two samples before the clip; 0,0 if not given"),
        file(
            "--coefficients",
            "FILE",
            "sixteen whole numbers as text (c0 and c1 of each pair in turn), 8192 and not 8,192, or an image to take them from; those of an older \
             bank may be given, with |c0| + |c1| up to 61,440 in each pair; measured if not given",
        ),
        file(
            "--after",
            "A.dspc",
            "goes on from where A ends, so that `join A.dspc OUT.dspc` loses nothing: takes A's coefficients, its last two \
             samples as history, and block size and gain where they are not given; A has to be of whole frames (14 samples)",
        ),
        flag(
            "--pad-to-frame",
            "holds the last sample for up to 13 more, so that a clip can follow: whole frames (14 samples)",
        ),
        flag("--cut-to-frame", "leaves out up to 13 samples at the end, so that a clip can follow"),
        value(
            "--loop",
            "START,END",
            "the clip has a loop, from sample START up to END, without END; both may be times: 12.5s or 1:02.5",
        ),
        flag(
            "--wav-loop",
            "the clip has the loop of the WAV file: the first of its smpl chunk that is played forwards; without one it is refused, or with \
             --into encoded without a loop, and a note says so",
        ),
        flag("--verify", "plays the image before it is written and tests each sample's distance"),
        RAW,
        value("--rate", "HZ", "with --raw: samples a second"),
        IGNORE_LENGTH,
        FORCE,
    ],
    notes: "A clip has 1 to 14,680,064 samples. Encoding the longest takes less than 64 MB of memory.\n\n\
        A loop has one sample at least and ends with the clip at the latest. Its samples have the numbers that they have in IN, with \
        --pad-to-frame and --after, too. In a smpl chunk the second number is the loop's last sample; END is the one after it.",
    run,
};

fn run(args: &Args, console: &Console) -> Result<Status, Failure> {
    let standard = |name: &&str| args.value(name).is_some_and(|value| value == "-");
    let wish = Wish::of(args)?;
    match ["--coefficients", "--after"].into_iter().find(standard) {
        Some(name) if args.has("--into") => {
            Err(Failure::usage(format!("{name}: standard input cannot serve many files")))
        }
        _ => {
            files::with_output(args, console, "dspc", |job, console| one(args, wish, job, console))
        }
    }
}

fn one(args: &Args, wish: Wish, job: &Job, console: &Console) -> Result<Status, Failure> {
    let (input, output) = (job.input, job.output.as_deref().unwrap_or_default());
    let given = ["--coefficients", "--after"].into_iter().filter_map(|name| args.value(name));
    let inputs: Vec<OsString> = [input].into_iter().chain(given).map(Into::into).collect();
    input::one_standard_input(&inputs)?;
    let mut wanted = settings::of(args)?;
    let framing = framing::wanted(args)?;
    let place = Output::at(What::Image, output, &inputs, args.has("--force"), console)
        .map_err(|failure| many_meant(job, failure))?;
    let rate = settings::read(args, &mut wanted, console)?;
    let mut clip = input::clip(input, args, Some(wanted.rate), console)?;
    let name = input::name(input);
    wanted.rate = clip.rate;
    if let Some(rate) = rate.filter(|rate| *rate != clip.rate) {
        let words =
            format!("rate {}, and the clip before it has {}", count(clip.rate), count(rate));
        return Err(Failure::input(&name, words));
    }
    let found = wish.found(&name, &clip, args.has("--into"), console)?;
    wanted.looped = found.span;
    let framed = framing::apply(framing, &name, &mut clip.samples)?;
    let encoder = codec::encode(&name, &clip.samples, &wanted, console)
        .map_err(|failure| blamed(args, &framed, failure))?;
    let distances = match args.has("--verify") {
        true => Some(verified(&name, &encoder, &clip.samples)?),
        false => None,
    };
    place.write(|out| out.write_all(encoder.image()))?;
    let mut fields = path_fields("input", "input_hex", input);
    fields.extend(path_fields("output", "output_hex", output));
    fields.extend(state_fields(&encoder, &wanted));
    fields.extend(framed.fields());
    told(&place.name, &encoder, &found, &framed, distances.as_ref(), fields, console)
}

/// A refusal with what it comes from: the file of the coefficients, or the samples that were left out.
fn blamed(args: &Args, framed: &Framed, failure: Failure) -> Failure {
    match failure.refusal {
        Some(Refusal::LoopOutside) => failure.with(framed.words()),
        _ => settings::blamed(args, failure),
    }
}

/// Two files of `encode *.wav` may both have been meant as inputs.
fn many_meant(job: &Job, failure: Failure) -> Failure {
    let both = [job.input, job.output.as_deref().unwrap_or_default()];
    let is_wav = |path: &OsStr| Path::new(path).extension().is_some_and(|end| end == "wav");
    match both.into_iter().all(is_wav) {
        true => failure.with(", --into FOLDER encodes many files"),
        false => failure,
    }
}

/// Says what was encoded.
fn told(
    place: &str,
    encoder: &Encoder,
    found: &Found,
    framed: &Framed,
    distances: Option<&Distances>,
    mut fields: Fields,
    console: &Console,
) -> Result<Status, Failure> {
    let verify = distances.map_or(Json::Null, |d| Json::Object(d.fields()));
    fields.push(("verify", verify));
    console.answer(Status::Done, fields, Words::Summary, |out| {
        let largest = distances
            .map(|d| format!("; verified: the largest distance is {}", count(d.largest().0)));
        writeln!(
            out,
            "{place}: {}{}{}{}",
            summary(encoder),
            found.words(),
            framed.words(),
            largest.unwrap_or_default()
        )
    })
}

/// Plays the image beside the clip; a sample beyond its bound would break what is proved.
fn verified(name: &str, encoder: &Encoder, clip: &[i16]) -> Result<Distances, Failure> {
    let refused = |refusal| Failure::refused(name, refusal);
    let image = Image::open(encoder.image()).map_err(refused)?;
    let distances = Distances::of(&image, clip).map_err(refused)?;
    match distances.beyond() {
        0 => Ok(distances),
        beyond => Err(Failure {
            status: Status::No,
            ..Failure::input(
                name,
                format!(
                    "{} beyond the bound: nothing is written. This is a fault of the machine or of this program",
                    counted(beyond, "sample plays", "samples play")
                ),
            )
        }),
    }
}

/// What was encoded, in words.
pub fn summary(encoder: &Encoder) -> String {
    let EncoderState { total, block, rate, .. } = encoder.state();
    let size = encoder.image().len();
    format!(
        "{} in {} of {} bytes, image of {} bytes ({:.2} to 1)",
        clip_length(total, rate),
        counted((8 * total.div_ceil(14)).div_ceil(block), "block", "blocks"),
        count(block),
        count(size as u64),
        2.0 * f64::from(total) / size as f64
    )
}

/// What was encoded, as fields.
pub fn state_fields(encoder: &Encoder, wanted: &Wanted) -> Fields<'static> {
    let state = encoder.state();
    let blocks = (8 * state.total.div_ceil(14)).div_ceil(state.block);
    vec![
        ("samples", Json::Whole(state.total.into())),
        ("rate", Json::Whole(state.rate.into())),
        ("block_size", Json::Whole(state.block.into())),
        ("blocks", Json::Whole(blocks.into())),
        ("bytes", Json::Whole(encoder.image().len() as i64)),
        ("gain", Json::Whole(state.gain.into())),
        ("loop", loops::json(state.looped.looped(), state.rate)),
        ("history", Json::numbers([wanted.history.newest, wanted.history.older])),
        ("end_history", Json::numbers([state.history.newest, state.history.older])),
        ("coefficients", Json::numbers(state.coefficients.0)),
        ("measured", Json::Bool(wanted.coefficients.is_none())),
        ("passes", Json::Whole(state.passes.into())),
    ]
}

#[cfg(test)]
mod tests {
    use super::*;
    use doilycairn::History;

    #[test]
    fn a_sample_beyond_its_bound_is_told() {
        let console = Console::new("encode", true, false);
        let wanted = Wanted {
            rate: 1,
            block_size: 8,
            gain: 0,
            coefficients: None,
            history: History::default(),
            looped: None,
        };
        let encoder = codec::encode("x", &[5; 100], &wanted, &console).unwrap();
        assert!(verified("x", &encoder, &[5; 100]).is_ok());
        let failure = verified("x", &encoder, &[500; 100]).unwrap_err();
        assert_eq!(failure.status, Status::No);
        assert!(failure.message.starts_with("x: 100 samples play beyond the bound"));
    }
}
