//! `join`: one image of two.

use crate::args::Args;
use crate::codec::{self, Wanted};
use crate::command::{Command, Many};
use crate::console::{Console, Words};
use crate::encode::{state_fields, summary};
use crate::failure::{Failure, Status};
use crate::image_bytes;
use crate::info;
use crate::input::{ImageFile, one_standard_input};
use crate::json::{Fields, Json, path_fields};
use crate::loops;
use crate::memory;
use crate::options::{DROP_LOOP, FORCE, flag, value};
use crate::output::{Output, What};
use crate::settings;
use crate::splice;
use crate::text::{clip_length, count, counted};
use doilycairn::{FrameContext, History, Image, Refusal};

pub const COMMAND: Command = Command {
    name: "join",
    operands: &["A.dspc", "B.dspc", "OUT.dspc"],
    many: Many::No,
    summary: "one image of two",
    about: "Writes one image that plays A and then B.\n\n\
        Without --reencode nothing is lost: the frames stay what they are. That needs equal rates, coefficients and block sizes, and an A of \
        whole frames (14 samples); and either A fills its last block, or B was encoded to follow A:\n  \
        doilycairn encode --pad-to-frame A.wav A.dspc\n  \
        doilycairn encode --after A.dspc B.wav B.dspc\n\n\
        OUT has no loop. Where A or B has one they are not joined without --drop-loop.",
    options: &[
        value("--gain", "NUMBER", "the gain, where the two differ"),
        flag("--reencode", "plays both and encodes them as one clip, measured afresh"),
        value(
            "--block-size",
            "BYTES",
            "with --reencode: bytes of a block, 8 to 65,536; that of A if not given",
        ),
        DROP_LOOP,
        FORCE,
    ],
    notes: "",
    run,
};

/// An image and the name of its file.
pub struct Part<'a> {
    pub name: &'a str,
    pub image: Image<'a>,
    bytes: &'a [u8],
    /// The context after its last sample.
    pub end: FrameContext,
}

impl<'a> Part<'a> {
    fn open(file: &'a ImageFile) -> Result<Self, Failure> {
        let image = file.open()?;
        crate::decode::plays(&image).map_err(|refusal| file.refused(refusal))?;
        let end = info::end(&image).unwrap_or_default();
        Ok(Self { name: &file.name, image, bytes: &file.bytes, end })
    }

    /// The bodies of its blocks, which stand back to back.
    pub fn bodies(&self) -> &'a [u8] {
        image_bytes::bodies(&self.image, self.bytes)
    }
}

fn run(args: &Args, console: &Console) -> Result<Status, Failure> {
    let [a, b, output] = [0, 1, 2].map(|i| args.operands[i].as_os_str());
    one_standard_input(&args.operands[..2])?;
    let gain = args.number("--gain", 0..=0xffff)?.map(|gain| gain as u16);
    let block_size = settings::block_size(args)?;
    if block_size.is_some() && !args.has("--reencode") {
        return Err(Failure::usage("--block-size goes with --reencode"));
    }
    let place = Output::at(What::Image, output, &args.operands[..2], args.has("--force"), console)?;
    let files = [ImageFile::read(a)?, ImageFile::read(b)?];
    let parts = [Part::open(&files[0])?, Part::open(&files[1])?];
    fits(&parts)?;
    if !args.has("--drop-loop") {
        without_loops(&parts)?;
    }
    let mut fields = path_fields("first", "first_hex", a);
    fields.extend(path_fields("second", "second_hex", b));
    fields.extend(path_fields("output", "output_hex", output));
    let (image, words, more) = match args.has("--reencode") {
        true => encoded_again(&parts, block_size, gain, console)?,
        false => spliced(&parts, gain)?,
    };
    place.write(|out| out.write_all(&image))?;
    fields.push(("reencoded", Json::Bool(args.has("--reencode"))));
    fields.extend(more);
    console.answer(Status::Done, fields, Words::Summary, |out| {
        writeln!(out, "{}: {words}", place.name)
    })
}

/// What no way of joining gets around: two rates, too many samples.
fn fits([first, second]: &[Part; 2]) -> Result<(), Failure> {
    let [a, b] = [first, second].map(|part| part.image.head());
    if a.rate != b.rate {
        let words = format!("rate {}, and {} has {}", count(b.rate), first.name, count(a.rate));
        return Err(Failure::input(second.name, words));
    }
    match a.total + b.total {
        total if total > doilycairn::MAX_SAMPLES => {
            let words = format!("; joined with {} it has {}", first.name, count(total));
            Err(Failure::refused(second.name, Refusal::BadSampleCount).with(words))
        }
        _ => Ok(()),
    }
}

/// Where the loop of a joined clip would be is for the caller to say.
fn without_loops(parts: &[Part; 2]) -> Result<(), Failure> {
    let looped = parts.iter().find_map(|part| part.image.looped().map(|points| (part, points)));
    let Some((part, points)) = looped else { return Ok(()) };
    let words = loops::words(points);
    Err(Failure::input(
        part.name,
        format!("it has a loop, {words}, and a joined image has none: --drop-loop leaves it out"),
    ))
}

type Joined = (Vec<u8>, String, Fields<'static>);

/// Joined without loss.
fn spliced(parts: &[Part; 2], gain: Option<u16>) -> Result<Joined, Failure> {
    let bytes = splice::join(parts, gain)?;
    let refused = |refusal| Failure::refused("the joined image", refusal);
    let image = Image::open(&bytes).map_err(refused)?;
    let [first, second] = [&parts[0], &parts[1]].map(|part| part.image.samples());
    let wanted = first.map_err(refused)?.chain(second.map_err(refused)?);
    if !image.samples().map_err(refused)?.eq(wanted) {
        return Err(Failure::input(parts[1].name, "it would not play as it does"));
    }
    let head = image.head();
    let words = format!(
        "{} in {} of {} bytes, as they were",
        clip_length(head.total, head.rate),
        counted(head.blocks, "block", "blocks"),
        count(head.block)
    );
    let fields = vec![
        ("samples", Json::Whole(head.total.into())),
        ("rate", Json::Whole(head.rate.into())),
        ("block_size", Json::Whole(head.block.into())),
        ("blocks", Json::Whole(head.blocks.into())),
        ("bytes", Json::Whole(bytes.len() as i64)),
        ("gain", Json::Whole(head.gain.into())),
        ("loop", loops::json(image.looped(), head.rate)),
    ];
    Ok((bytes, words, fields))
}

/// Played, and encoded as one clip.
fn encoded_again(
    parts: &[Part; 2],
    block_size: Option<u32>,
    gain: Option<u16>,
    console: &Console,
) -> Result<Joined, Failure> {
    let head = parts[0].image.head();
    let total: u32 = parts.iter().map(|part| part.image.head().total).sum();
    let mut clip = memory::room(total as usize)?;
    for part in parts {
        let samples = part.image.samples().map_err(|r| Failure::refused(part.name, r))?;
        clip.extend(samples);
    }
    let start = parts[0].image.blocks().next().map_or([0; 2], |b| b.context.last_samples);
    let wanted = Wanted {
        rate: head.rate,
        block_size: block_size.unwrap_or(head.block),
        gain: gain.unwrap_or(head.gain),
        coefficients: None,
        history: History { newest: start[0], older: start[1] },
        looped: None,
    };
    let encoder = codec::encode("the joined clip", &clip, &wanted, console)?;
    let (words, fields) = (summary(&encoder), state_fields(&encoder, &wanted));
    Ok((encoder.into_parts().1, format!("{words}, encoded again"), fields))
}
