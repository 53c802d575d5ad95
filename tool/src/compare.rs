//! `same`: whether two images are the same, or sound the same.

mod differing;
mod told;

use crate::args::Args;
use crate::command::{Command, Many};
use crate::console::{Console, Words};
use crate::decode::plays;
use crate::failure::{Failure, Status};
use crate::input::{ImageFile, one_standard_input};
use crate::json::{Fields, Json, path_fields};
use crate::options::flag;
use crate::text::clip_length;
use differing::Differing;
use doilycairn::{Image, Refusal};
use std::io::{self, Write};

pub const COMMAND: Command = Command {
    name: "same",
    operands: &["A.dspc", "B.dspc"],
    many: Many::No,
    summary: "whether two images are the same, or sound the same, and else what differs",
    about: "Compares two images. They are the same where they agree in samples, rate, gain, block size, coefficients, what each block \
        begins from, and the loop with what it begins from; else what differs is told. The top bit of a header, which playing does \
        not use, the spare nibble of an odd tail and bytes after the image do not count.",
    options: &[flag(
        "--sound",
        "only what the two play counts: as many samples, and the same ones; block size, gain, rate, loop and all else may differ",
    )],
    notes: "Exit status 0: the same. 1: different.",
    run,
};

/// What comparing two images gave.
struct Compared {
    /// Whether the sound alone was compared.
    sound: bool,
    /// The library's verdict.
    same: bool,
    totals: [u32; 2],
    /// What differs of that which counts.
    differs: Vec<Differing>,
}

fn run(args: &Args, console: &Console) -> Result<Status, Failure> {
    let [a, b] = [0, 1].map(|i| args.operands[i].as_os_str());
    one_standard_input(&args.operands)?;
    let files = [ImageFile::read(a)?, ImageFile::read(b)?];
    let images = [opened(&files[0])?, opened(&files[1])?];
    let sound = args.has("--sound");
    let compared = Compared::of(&images, sound).map_err(|refusal| files[0].refused(refusal))?;
    if sound {
        uncounted(&images, console);
    }
    let mut fields = path_fields("first", "first_hex", a);
    fields.extend(path_fields("second", "second_hex", b));
    fields.extend(compared.fields());
    let status = if compared.same { Status::Done } else { Status::No };
    let rate = images[0].head().rate;
    console.answer(status, fields, Words::Status, |out| compared.write(rate, out))
}

/// Opens an image that plays.
fn opened(file: &ImageFile) -> Result<Image<'_>, Failure> {
    let image = file.open()?;
    plays(&image).map_err(|refusal| file.refused(refusal))?;
    Ok(image)
}

/// Tells what differs and does not count where the sound alone is compared.
fn uncounted([first, second]: &[Image; 2], console: &Console) {
    if first.head().rate != second.head().rate {
        console.note("the rates differ; sameness is that of the samples".into());
    }
    if !differing::in_loops(first, second).is_empty() {
        console.note("the loops differ; sameness is that of the samples".into());
    }
}

impl Compared {
    /// The library compares; what differs is looked for only where it says that something does.
    fn of([first, second]: &[Image; 2], sound: bool) -> Result<Self, Refusal> {
        let same = if sound { first.sounds_same(second) } else { first.same(second) }?;
        let differs = match (same, sound) {
            (true, _) => vec![],
            (false, true) => differing::in_samples(first, second)?.into_iter().collect(),
            (false, false) => differing::in_all(first, second)?,
        };
        Ok(Self { sound, same, totals: [first, second].map(|image| image.head().total), differs })
    }

    fn fields(&self) -> Fields<'_> {
        vec![
            ("sound", Json::Bool(self.sound)),
            ("same", Json::Bool(self.same)),
            ("samples", Json::numbers(self.totals)),
            ("difference", told::difference(&self.differs)),
            ("differs", Json::list(self.differs.iter().map(Differing::json))),
        ]
    }

    /// One line, or one for each thing that differs.
    fn write(&self, rate: u32, out: &mut dyn Write) -> io::Result<()> {
        if self.same {
            let word = if self.sound { "the same sound" } else { "the same" };
            return writeln!(out, "{word}: {}", clip_length(self.totals[0], rate));
        }
        if self.differs.is_empty() {
            return writeln!(out, "different");
        }
        self.differs.iter().try_for_each(|what| writeln!(out, "different: {}", what.words()))
    }
}

#[cfg(test)]
mod tests {
    use super::*;

    fn written(compared: &Compared) -> String {
        let mut out = vec![];
        compared.write(8000, &mut out).unwrap();
        String::from_utf8(out).unwrap()
    }

    #[test]
    fn the_verdict_is_told_where_nothing_is_found() {
        let none = Compared { sound: false, same: false, totals: [28, 28], differs: vec![] };
        assert_eq!(written(&none), "different\n");
        let rate = Compared { differs: vec![Differing::Rate([8000, 8001])], ..none };
        assert_eq!(written(&rate), "different: rate 8,000 and 8,001\n");
        let same = Compared { same: true, differs: vec![], ..rate };
        assert_eq!(written(&same), "the same: 28 samples at 8,000 Hz (3.5 ms)\n");
        let sound = Compared { sound: true, ..same };
        assert_eq!(written(&sound), "the same sound: 28 samples at 8,000 Hz (3.5 ms)\n");
    }
}
