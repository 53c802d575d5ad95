//! `import`: from a .dsp file to an image.

use crate::args::Args;
use crate::codec;
use crate::command::{Command, Many};
use crate::console::{Console, Words};
use crate::dsp::{self, Imported};
use crate::failure::{Failure, Status};
use crate::files::{self, Job};
use crate::input::ImageFile;
use crate::json::{Fields, Json, path_fields};
use crate::loops;
use crate::options::{BLOCK_SIZE, FORCE, INTO, JOBS, LENIENT};
use crate::output::{Output, What};
use crate::settings;
use crate::text::{clip_length, count, counted};
use doilycairn::{Head, Image};

pub const COMMAND: Command = Command {
    name: "import",
    operands: &["IN.dsp", "OUT.dspc"],
    many: Many::Into,
    summary: "from a .dsp file to an image",
    about: "Writes the clip of a .dsp file of one channel as an image. The frames stay as they are, and are played as before; what each block begins \
        from is worked out, and the loop stays.",
    options: &[INTO, JOBS, BLOCK_SIZE, LENIENT, FORCE],
    notes: "A field of the header that is not as it should be is refused (26), and named with what it holds and what it should hold. Other programs \
        write other values where nothing is played from them: --lenient mends these, and no other field. What it does not mend are the nibble count, \
        the loop flag, the format number, headers, and any field of a loop that there is. Bytes after the last frame are left out.",
    run,
};

fn run(args: &Args, console: &Console) -> Result<Status, Failure> {
    let block_size = settings::block_size(args)?.unwrap_or(codec::BLOCK_SIZE);
    files::with_output(args, console, "dspc", |job, console| one(args, block_size, job, console))
}

fn one(args: &Args, block_size: u32, job: &Job, console: &Console) -> Result<Status, Failure> {
    let (input, output) = (job.input, job.output.as_deref().unwrap_or_default());
    let place = Output::at(What::Image, output, &[input.into()], args.has("--force"), console)?;
    let mut file = ImageFile::read(input)?;
    let imported = dsp::import(&mut file, block_size, args.has("--lenient"), console)?;
    let image = Image::open(&imported.image).map_err(|refusal| file.refused(refusal))?;
    place.write(|out| out.write_all(&imported.image))?;
    let after = file.length.saturating_sub(imported.size as u64);
    let mut fields = path_fields("input", "input_hex", input);
    fields.extend(path_fields("output", "output_hex", output));
    fields.extend(image_fields(&image, &imported, after));
    console.answer(Status::Done, fields, Words::Summary, |out| {
        writeln!(out, "{}: {}", place.name, words(&image, &imported, after))
    })
}

/// What was imported, as fields.
fn image_fields(image: &Image, imported: &Imported, after: u64) -> Fields<'static> {
    let Head { total, rate, block, blocks, gain, .. } = *image.head();
    vec![
        ("samples", Json::Whole(total.into())),
        ("rate", Json::Whole(rate.into())),
        ("block_size", Json::Whole(block.into())),
        ("blocks", Json::Whole(blocks.into())),
        ("bytes", Json::Whole(imported.image.len() as i64)),
        ("bytes_after", Json::Whole(after as i64)),
        ("gain", Json::Whole(gain.into())),
        ("loop", loops::json(image.looped(), rate)),
        ("mended", dsp::mended_json(&imported.mended)),
    ]
}

/// What was imported, in words.
fn words(image: &Image, imported: &Imported, after: u64) -> String {
    let Head { total, rate, block, blocks, .. } = *image.head();
    let (clip, blocks) = (clip_length(total, rate), counted(blocks, "block", "blocks"));
    let (block, size) = (count(block), count(imported.image.len() as u64));
    let left_out = match after {
        0 => String::new(),
        _ => format!("; {} after the last frame left out", counted(after, "byte", "bytes")),
    };
    let points = loops::after(image.looped());
    format!("{clip} in {blocks} of {block} bytes, image of {size} bytes{points}{left_out}")
}
