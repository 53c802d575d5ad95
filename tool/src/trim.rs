//! `trim`: a part of an image, its frames as they are where that can be.

mod looped;
mod part;

use crate::args::Args;
use crate::codec::{self, Wanted};
use crate::command::{Command, Many};
use crate::console::{Console, Words};
use crate::distance::Distances;
use crate::failure::{Failure, Status};
use crate::image_bytes::{self, context_at};
use crate::input::{self, ImageFile};
use crate::json::{Fields, Json, path_fields};
use crate::loops::{self, Looped};
use crate::memory;
use crate::options::{DROP_LOOP, FORCE, IGNORE_LENGTH, file, flag, value};
use crate::output::{Output, What};
use crate::seams::{self, Seam};
use crate::text::{clip_length, count, counted};
use doilycairn::{Block, FrameContext, Head, History, Image, Refusal, Samples};
use part::Part;
use std::ffi::{OsStr, OsString};

pub const COMMAND: Command = Command {
    name: "trim",
    operands: &["IN.dspc", "OUT.dspc"],
    many: Many::No,
    summary: "an image of a part of another",
    about: "Writes an image of the samples from A up to B, without B.\n\n\
        Where A is a multiple of 14 every frame stays as it is, byte for byte, and so does every sample, wherever B is. Else all \
        of them are encoded again, with the coefficients of IN: from what IN plays, or from the recording.\n\n\
        A loop of IN stays, around the same samples, where the part has all of it. Else it is left out, and a note says so.",
    options: &[
        value(
            "--from",
            "A",
            "the first sample that stays, or a time: 12.5s or 1:02.5; 0 if not given",
        ),
        value("--to", "B", "the first sample that goes, or a time; the end if not given"),
        file(
            "--recording",
            "REC.wav",
            "what IN was encoded from: where frames are encoded again, from this",
        ),
        flag("--raw", "REC.wav has no head: 16-bit little-endian samples"),
        IGNORE_LENGTH,
        DROP_LOOP,
        FORCE,
    ],
    notes: "",
    run,
};

fn run(args: &Args, console: &Console) -> Result<Status, Failure> {
    let [input, output] = [0, 1].map(|i| args.operands[i].as_os_str());
    let given = args.value("--recording");
    let inputs: Vec<OsString> = [input].into_iter().chain(given).map(Into::into).collect();
    input::one_standard_input(&inputs)?;
    let place = Output::at(What::Image, output, &inputs, args.has("--force"), console)?;
    let file = ImageFile::read(input)?;
    let image = file.open()?;
    let seams = seams::seams(&image).map_err(|refusal| file.refused(refusal))?;
    let part = Part::of(args, &file.name, image.head())?;
    let recording = given.map(|path| recording(path, args, &image, console)).transpose()?;
    let looped = looped::stays(args, &file, &image, &part, console);
    let (bytes, encoded) = match obstacle(&part, &seams, looped.as_ref(), image.head()) {
        None => (kept(&file, &image, &part, looped.as_ref())?, None),
        Some(why) => {
            console.note(format!("{why}, so every frame is encoded again"));
            again(&file, &image, &part, looped.as_ref(), recording.as_deref(), console)?
        }
    };
    if encoded.is_none() && recording.is_some() {
        console.note("nothing is encoded again: --recording is not needed".into());
    }
    place.write(|out| out.write_all(&bytes))?;
    let mut fields = path_fields("input", "input_hex", input);
    fields.extend(path_fields("output", "output_hex", output));
    told(&place.name, &bytes, &part, encoded, fields, console)
}

/// Says what was kept and what was encoded again.
fn told(
    place: &str,
    bytes: &[u8],
    part: &Part,
    encoded: Option<String>,
    mut fields: Fields,
    console: &Console,
) -> Result<Status, Failure> {
    let image = Image::open(bytes).map_err(|refusal| Failure::refused(place, refusal))?;
    let Head { total, rate, block, blocks, gain, .. } = *image.head();
    let frames = i64::from(total.div_ceil(14));
    let again = if encoded.is_some() { frames } else { 0 };
    let numbers = [
        ("from", part.from.into()),
        ("to", part.to.into()),
        ("frames_kept", frames - again),
        ("frames_encoded", again),
        ("samples", total.into()),
        ("rate", rate.into()),
        ("block_size", block.into()),
        ("blocks", blocks.into()),
        ("bytes", bytes.len() as i64),
        ("gain", gain.into()),
    ];
    fields.extend(numbers.map(|(name, number)| (name, Json::Whole(number))));
    fields.push(("loop", loops::json(image.looped(), rate)));
    let points = loops::after(image.looped());
    console.answer(Status::Done, fields, Words::Summary, |out| {
        let frames = counted(frames, "frame", "frames");
        let clip = clip_length(total, rate);
        let blocks = format!("{} of {} bytes", counted(blocks, "block", "blocks"), count(block));
        match encoded {
            None => writeln!(out, "{place}: {clip} in {blocks}: {frames}, as they were{points}"),
            Some(from) => writeln!(
                out,
                "{place}: {clip} in {blocks}: {frames} encoded again from {from}{points}"
            ),
        }
    })
}

/// What IN was encoded from, as far as that can be told.
fn recording(
    path: &OsStr,
    args: &Args,
    image: &Image,
    console: &Console,
) -> Result<Vec<i16>, Failure> {
    let samples = crate::info::reference(path, args, image, console)?;
    let name = input::name(path);
    let distances = Distances::of(image, &samples).map_err(|r| Failure::refused(&name, r))?;
    if distances.beyond() > 0 {
        let beyond = counted(distances.beyond(), "sample is", "samples are");
        console
            .note(format!("{name}: {beyond} beyond the bound: the image was not encoded from it"));
    }
    Ok(samples)
}

/// Why frames cannot stay as they are.
fn obstacle(part: &Part, seams: &[Seam], looped: Option<&Looped>, head: &Head) -> Option<String> {
    let (from, off) = (part.from, part.from % 14);
    if off != 0 {
        let (below, above) = (count(from - off), count(from - off + 14));
        let from = count(from);
        return Some(format!(
            "sample {from} does not begin a frame (--from {below} or {above} does)"
        ));
    }
    let moves = from / 14 % (head.block / 8) != 0;
    let within = |seam: &&Seam| moves && seam.sample > from && seam.sample < part.to;
    let seam = seams.iter().find(within).map(|seam| {
        format!(
            "block {} does not go on from the block before it, and would be within a block",
            count(seam.block)
        )
    });
    seam.or_else(|| looped.filter(|_| moves).and_then(looped::obstacle))
}

/// The part's frames, as they are; the last one may be cut.
fn kept(
    file: &ImageFile,
    image: &Image,
    part: &Part,
    looped: Option<&Looped>,
) -> Result<Vec<u8>, Failure> {
    let head = Head { total: part.to - part.from, ..*image.head() };
    let (first, frames) = (part.from as usize / 14, head.total.div_ceil(14));
    let nibbles = u64::from(head.total + 2 * frames);
    let bodies =
        &image_bytes::bodies(image, &file.bytes)[8 * first..][..nibbles.div_ceil(2) as usize];
    let contexts = contexts(image, first, frames as usize).map_err(|r| file.refused(r))?;
    let turn = looped.map(|looped| (looped.points, looped.context));
    let bytes = image_bytes::image(&head, &contexts, turn, bodies, nibbles);
    let refused = |refusal| Failure::refused("the trimmed image", refusal);
    let trimmed = Image::open(&bytes).map_err(refused)?;
    let wanted = image.samples().map_err(refused)?;
    let wanted = wanted.skip(part.from as usize).take(head.total as usize);
    match trimmed.samples().map_err(refused)?.eq(wanted) {
        true => Ok(bytes),
        false => Err(Failure::input(&file.name, "its part would not play as it does")),
    }
}

/// The contexts of the blocks of so many frames, from `first` on.
fn contexts(image: &Image, first: usize, frames: usize) -> Result<Vec<FrameContext>, Refusal> {
    let each = image.head().block as usize / 8;
    let blocks: Vec<Block> = image.blocks().skip(first / each).collect();
    (0..frames.div_ceil(each)).map(|k| context_at(&blocks[k], first % each)).collect()
}

/// The part, encoded again; says what from.
fn again(
    file: &ImageFile,
    image: &Image,
    part: &Part,
    looped: Option<&Looped>,
    recording: Option<&[i16]>,
    console: &Console,
) -> Result<(Vec<u8>, Option<String>), Failure> {
    let head = image.head();
    let (from, len) = (part.from as usize, (part.to - part.from) as usize);
    let mut played = image.samples().map_err(|refusal| file.refused(refusal))?;
    let [newest, older] = history(image, &mut played, from);
    let mut rest = vec![];
    if recording.is_none() {
        rest = memory::room(len)?;
        rest.extend(played.take(len));
    }
    let wanted = Wanted {
        rate: head.rate,
        block_size: head.block,
        gain: head.gain,
        coefficients: Some(head.coefficients),
        history: History { newest, older },
        looped: looped.map(|looped| looped.points.into()),
    };
    let clip = recording.map_or(&rest[..], |recording| &recording[from..from + len]);
    let encoder = codec::encode(&file.name, clip, &wanted, console)?;
    let from = match recording {
        Some(_) => "the recording".into(),
        None => format!("what {} plays", file.name),
    };
    Ok((encoder.into_parts().1, Some(from)))
}

/// The two samples before a place, the newest first; leaves those from there on.
fn history(image: &Image, played: &mut Samples, at: usize) -> [i16; 2] {
    let start = image.blocks().next().map_or([0; 2], |block| block.context.last_samples);
    played.take(at).fold(start, |[newest, _], sample| [sample, newest])
}
