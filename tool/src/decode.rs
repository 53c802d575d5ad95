//! `decode`: from an image, or a .dsp file, to samples.

mod chosen;
mod part;
mod turns;

use crate::args::Args;
use crate::command::{Command, Many};
use crate::console::{Console, Words};
use crate::failure::{Failure, Status};
use crate::files::{self, Job};
use crate::input::ImageFile;
use crate::json::{Json, path_fields};
use crate::options::{FORCE, INTO, JOBS, LENIENT, flag, value};
use crate::output::{Output, What};
use crate::wav;
use chosen::{Choice, Chosen};
use doilycairn::{Image, Refusal};

pub const COMMAND: Command = Command {
    name: "decode",
    operands: &["IN.dspc", "OUT.wav"],
    many: Many::Into,
    summary: "from an image to samples",
    about: "Plays the image and writes the samples. IN may be a .dsp file, too, which is played as the image that import makes of it.",
    options: &[
        INTO,
        JOBS,
        value("--block", "K", "only block K, from 0 on, played from its own context"),
        value(
            "--from",
            "SAMPLE",
            "begins with this sample, and plays nothing of the blocks before its own; 0 if not given",
        ),
        value(
            "--count",
            "SAMPLES",
            "so many samples at most; all up to the clip's last one if not given",
        ),
        value(
            "--loop",
            "TIMES",
            "the loop's samples so many times over, each turn from what is stored for it; refused where the image has no loop",
        ),
        flag("--lead-in", "first the samples before the loop; goes with --loop"),
        flag("--raw", "OUT has no head: 16-bit little-endian samples"),
        LENIENT,
        FORCE,
    ],
    notes: "With --from or --count OUT has the samples that playing the whole clip gives there; --block goes with neither. Samples \
        have numbers from 0 on. --loop goes with none of the three. A WAV file has up to 2,147,483,629 samples; --raw has no limit.",
    run,
};

fn run(args: &Args, console: &Console) -> Result<Status, Failure> {
    let extension = if args.has("--raw") { "raw" } else { "wav" };
    let choice = Choice::of(args)?;
    files::with_output(args, console, extension, |job, console| one(args, choice, job, console))
}

fn one(args: &Args, choice: Choice, job: &Job, console: &Console) -> Result<Status, Failure> {
    let (input, output) = (job.input, job.output.as_deref().unwrap_or_default());
    let place = Output::at(What::Recording, output, &[input.into()], args.has("--force"), console)?;
    let file = ImageFile::read_clip(input, args, console)?;
    let image = file.open()?;
    let headed = !args.has("--raw");
    let mut chosen = Chosen::of(choice, headed, &file, &image)?;
    let (samples, rate) = (chosen.samples(&image), image.head().rate);
    let mut touched = 0;
    place.write(|out| {
        if headed {
            wav::write_head(samples as u32, rate, out)?;
        }
        touched = chosen.write(&image, out, console)?;
        Ok(())
    })?;
    let mut fields = path_fields("input", "input_hex", input);
    fields.extend(path_fields("output", "output_hex", output));
    fields.extend([
        ("samples", Json::Whole(samples as i64)),
        ("rate", Json::Whole(rate.into())),
        ("block", choice.block().map_or(Json::Null, |block| Json::Whole(block.into()))),
    ]);
    fields.extend(file.source_fields());
    fields.extend(chosen.fields(touched, rate));
    console.answer(Status::Done, fields, Words::Summary, |out| {
        writeln!(out, "{}: {}", place.name, chosen.words(touched, &file.name, samples, rate))
    })
}

/// Whether the image plays: where one block does, all do.
pub fn plays(image: &Image) -> Result<(), Refusal> {
    image
        .blocks()
        .next()
        .map_or(Ok(()), |block| block.play(&mut vec![0; block.sample_count()]).map(drop))
}
