//! What to encode with: options, and the files that they name.

use crate::args::Args;
use crate::codec::{BLOCK_SIZE, Wanted};
use crate::coefficients;
use crate::console::Console;
use crate::decode::plays;
use crate::failure::Failure;
use crate::info;
use crate::input::{self, ImageFile};
use crate::text::count;
use doilycairn::{BLOCK_SIZES, History, Refusal};
use std::ffi::OsStr;

/// The option --block-size.
pub fn block_size(args: &Args) -> Result<Option<u32>, Failure> {
    let range = u64::from(*BLOCK_SIZES.start())..=u64::from(*BLOCK_SIZES.end());
    Ok(args.number("--block-size", range)?.map(|size| size as u32))
}

/// The options.
pub fn of(args: &Args) -> Result<Wanted, Failure> {
    let gain = args.number("--gain", 0..=0xffff)?.unwrap_or(0);
    let rate = match (args.has("--raw"), args.number("--rate", 1..=u64::from(u32::MAX))?) {
        (true, None) => return Err(Failure::usage("--raw needs --rate HZ")),
        (false, Some(_)) => {
            return Err(Failure::usage("--rate goes with --raw; a WAV file has its own"));
        }
        (_, rate) => rate.unwrap_or(0),
    };
    Ok(Wanted {
        rate: rate as u32,
        block_size: block_size(args)?.unwrap_or(BLOCK_SIZE),
        gain: gain as u16,
        coefficients: None,
        history: args.value("--history").map(history).transpose()?.unwrap_or_default(),
        looped: None,
    })
}

/// The value of --history.
fn history(value: &OsStr) -> Result<History, Failure> {
    let parts = value.to_str().and_then(|text| text.split_once(','));
    let parsed = parts.and_then(|(newest, older)| {
        Some(History { newest: newest.trim().parse().ok()?, older: older.trim().parse().ok()? })
    });
    parsed.ok_or_else(|| {
        Failure::usage("--history is NEWEST,OLDER: two samples from -32,768 to 32,767")
    })
}

/// Reads the files that the options name; gives the rate of the clip that this one goes on from.
pub fn read(args: &Args, wanted: &mut Wanted, console: &Console) -> Result<Option<u32>, Failure> {
    let own = ["--coefficients", "--history"].into_iter().find(|name| args.has(name));
    match (args.value("--after"), own) {
        (Some(_), Some(own)) => {
            Err(Failure::usage(format!("--after says what {own} says: give one of the two")))
        }
        (Some(path), None) => after(path, args, wanted, console).map(Some),
        (None, _) => {
            wanted.coefficients =
                args.value("--coefficients").map(coefficients::read).transpose()?;
            Ok(None)
        }
    }
}

/// A refusal for the coefficients is that of the file they came from.
pub fn blamed(args: &Args, failure: Failure) -> Failure {
    let from = args.value("--coefficients").or(args.value("--after"));
    match (failure.refusal, from) {
        (Some(Refusal::CoefficientOutside), Some(path)) => {
            let words = failure.message.split_once(": ").map_or("", |(_, words)| words);
            Failure { message: format!("{}: {words}", input::name(path)), ..failure }
        }
        _ => failure,
    }
}

/// Takes from an image what a clip needs that goes on from it.
fn after(
    path: &OsStr,
    args: &Args,
    wanted: &mut Wanted,
    console: &Console,
) -> Result<u32, Failure> {
    let file = ImageFile::read(path)?;
    let image = file.open()?;
    plays(&image).map_err(|refusal| file.refused(refusal))?;
    let head = image.head();
    if head.total % 14 != 0 {
        let samples = count(head.total);
        console.note(format!(
            "{}: {samples} samples: its last frame is not full, and `join` will not put a clip after it without --reencode; \
             --pad-to-frame or --cut-to-frame makes one that can be followed",
            file.name
        ));
    }
    if image.looped().is_some() {
        let name = &file.name;
        console.note(format!(
            "{name}: it has a loop, and `join` will not put a clip after it without --drop-loop"
        ));
    }
    let [newest, older] = info::end(&image).unwrap_or_default().last_samples;
    wanted.history = History { newest, older };
    wanted.coefficients = Some(head.coefficients);
    if !args.has("--block-size") {
        wanted.block_size = head.block;
    }
    if !args.has("--gain") {
        wanted.gain = head.gain;
    }
    Ok(head.rate)
}
