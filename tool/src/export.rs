//! `export`: from an image to a .dsp file.

use crate::args::Args;
use crate::command::{Command, Many};
use crate::console::{Console, Words};
use crate::failure::{Failure, Status};
use crate::files::{self, Job};
use crate::input::ImageFile;
use crate::json::{Json, path_fields};
use crate::loops;
use crate::memory;
use crate::options::{FORCE, INTO, JOBS};
use crate::output::{Output, What};
use crate::seams;
use crate::text::{clip_length, count};
use doilycairn::{Head, Image, Refusal, dsp_size};

pub const COMMAND: Command = Command {
    name: "export",
    operands: &["IN.dspc", "OUT.dsp"],
    many: Many::Into,
    summary: "from an image to a .dsp file",
    about: "Writes the clip as a .dsp file of one channel, as studios exchange them: a header of 96 bytes, and the frames as they are.",
    options: &[INTO, JOBS, FORCE],
    notes: "A .dsp file does not hold how the clip is cut into blocks: `import --block-size BYTES` with the block size of IN gives IN back, byte for \
        byte. So an image is refused (35) where a block does not begin from what the block before it leaves, as after `join` of clips that do not \
        follow each other; the block is named.",
    run,
};

fn run(args: &Args, console: &Console) -> Result<Status, Failure> {
    files::with_output(args, console, "dsp", |job, console| one(args, job, console))
}

fn one(args: &Args, job: &Job, console: &Console) -> Result<Status, Failure> {
    let (input, output) = (job.input, job.output.as_deref().unwrap_or_default());
    let place = Output::at(What::Dsp, output, &[input.into()], args.has("--force"), console)?;
    let file = ImageFile::read(input)?;
    let image = file.open()?;
    let bytes = exported(&file, &image)?;
    place.write(|out| out.write_all(&bytes))?;
    let Head { total, rate, block, gain, .. } = *image.head();
    let mut fields = path_fields("input", "input_hex", input);
    fields.extend(path_fields("output", "output_hex", output));
    fields.extend([
        ("samples", Json::Whole(total.into())),
        ("rate", Json::Whole(rate.into())),
        ("block_size", Json::Whole(block.into())),
        ("bytes", Json::Whole(bytes.len() as i64)),
        ("gain", Json::Whole(gain.into())),
        ("loop", loops::json(image.looped(), rate)),
    ]);
    console.answer(Status::Done, fields, Words::Summary, |out| {
        let (clip, block) = (clip_length(total, rate), count(block));
        let (size, points) = (count(bytes.len() as u64), loops::after(image.looped()));
        writeln!(
            out,
            "{}: {clip} from blocks of {block} bytes, .dsp file of {size} bytes{points}",
            place.name
        )
    })
}

/// The .dsp file of an image.
fn exported(file: &ImageFile, image: &Image) -> Result<Vec<u8>, Failure> {
    let mut bytes = memory::zeros(dsp_size(image.head().total).unwrap_or(0))?;
    image.to_dsp_into(&mut bytes).map_err(|refusal| {
        let seam = match refusal {
            Refusal::OtherHistory { .. } => other_history(image),
            _ => None,
        };
        file.refused(refusal).with(seam.unwrap_or_default())
    })?;
    Ok(bytes)
}

/// What the first block that does not go on begins from, and what the block before it leaves.
fn other_history(image: &Image) -> Option<String> {
    let seams = seams::seams(image).ok()?;
    let seam = seams.first()?;
    let ([newest, older], [left, before]) = (seam.stored, seam.left);
    let sample = count(seam.sample);
    Some(format!("; at sample {sample} it begins after {newest},{older} and not {left},{before}"))
}
