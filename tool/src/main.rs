//! `doilycairn`: encodes, decodes, exports, imports, shows, checks, compares, joins and trims DSP ADPCM clips.

mod args;
mod call;
mod check;
mod codec;
mod coefficients;
mod command;
mod compare;
mod completions;
mod console;
mod decode;
mod distance;
mod dsp;
mod encode;
mod export;
mod failure;
mod files;
mod findings;
mod framing;
mod help;
mod image_bytes;
mod import;
mod info;
mod input;
mod join;
mod json;
mod lines;
mod loops;
mod man;
mod memory;
mod options;
mod output;
mod paint;
mod picture;
mod place;
mod progress;
mod seams;
mod settings;
mod splice;
mod suggest;
mod survey;
mod tables;
mod text;
mod trim;
mod wav;

use std::ffi::OsString;
use std::process::ExitCode;

fn main() -> ExitCode {
    let words: Vec<OsString> = std::env::args_os().skip(1).collect();
    ExitCode::from(call::call(&words) as u8)
}
