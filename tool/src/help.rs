//! Help, made from the table of commands.

use crate::command::{self, Command};
use crate::failure::STATUSES;
use crate::options::{COMMON, Opt};
use doilycairn::Refusal;
use std::fmt::Write;

/// Letters in a line.
const WIDTH: usize = 100;

pub const ABOUT: &str = "DSP ADPCM clips, the sound format of the GameCube and the Wii.";

/// What is to be known of files.
pub const FILES: &str = "WAV files have one channel of 16-bit PCM; '-' is standard input or standard output. Images (.dspc) are this \
    program's own container of a clip, described in FORMAT.md. Files of the consoles (.dsp) of one channel are written by export and read by import, \
    decode and info. A file is replaced as a whole or not at all. Without --force no input is written over, no recording (WAV), no file that is \
    marked read-only, and no image or .dsp file by what is none.";

/// Other calls.
pub const TOPICS: [(&str, &str); 4] = [
    ("help COMMAND", "help of a command, as COMMAND --help"),
    ("help refusals", "the library's refusals, by number"),
    ("man", "the manual page, for man"),
    ("completions SHELL", "what bash, zsh or fish completes"),
];

/// Help of the program.
pub fn program() -> String {
    let mut text = format!("doilycairn: {ABOUT}\n\nUsage: doilycairn COMMAND [OPTIONS] FILES\n\n");
    let calls = |c: &&Command| (format!("{} {}", c.name, c.usages()[0]), c.summary.into());
    table(&mut text, &command::ALL.iter().map(calls).collect::<Vec<_>>());
    text += "\nEvery command:\n";
    let mut common: Vec<(String, String)> = COMMON.iter().map(line).collect();
    common.push(("--".into(), "ends the options".into()));
    table(&mut text, &common);
    text += "\nAlso:\n";
    let mut topics: Vec<_> = TOPICS.map(|(call, what)| (call.into(), what.into())).into();
    topics.push(("-V, --version".into(), "the version".into()));
    table(&mut text, &topics);
    text.push('\n');
    paragraph(&mut text, FILES);
    text += "\nExit status:\n";
    let statuses = STATUSES.iter().enumerate();
    table(
        &mut text,
        &statuses.map(|(i, what)| (i.to_string(), what.to_string())).collect::<Vec<_>>(),
    );
    text
}

/// Help of a command.
pub fn of(command: &Command) -> String {
    let mut text = String::new();
    for (i, usage) in command.usages().iter().enumerate() {
        let word = if i == 0 { "Usage:" } else { "      " };
        let _ = writeln!(text, "{word} doilycairn {} [OPTIONS] {usage}", command.name);
    }
    for part in command.about.split("\n\n") {
        text.push('\n');
        paragraph(&mut text, part);
    }
    text.push('\n');
    table(&mut text, &command.all_options().map(line).collect::<Vec<_>>());
    for part in command.notes.split("\n\n").filter(|part| !part.is_empty()) {
        text.push('\n');
        paragraph(&mut text, part);
    }
    text
}

/// An option with its value, as it is written.
pub fn written(opt: &Opt) -> String {
    let short = if opt.short.is_empty() { String::new() } else { format!("{}, ", opt.short) };
    let value = opt.value.map(|value| format!(" {}", value.name)).unwrap_or_default();
    format!("{short}{}{value}", opt.name)
}

fn line(opt: &Opt) -> (String, String) {
    (written(opt), opt.help.into())
}

/// Two columns.
fn table(text: &mut String, lines: &[(String, String)]) {
    let wide = lines.iter().map(|(left, _)| left.len()).max().unwrap_or(0);
    for (left, right) in lines {
        for (i, part) in wrapped(right, WIDTH - wide - 5).iter().enumerate() {
            let left = if i == 0 { left } else { "" };
            let _ = writeln!(text, "  {left:wide$}   {part}");
        }
    }
}

/// A paragraph; a line that begins with a blank stays as it is.
fn paragraph(text: &mut String, words: &str) {
    for part in words.split('\n') {
        let lines = if part.starts_with(' ') { vec![part.into()] } else { wrapped(part, WIDTH) };
        for line in lines {
            let _ = writeln!(text, "{line}");
        }
    }
}

/// Lines of at most so many letters.
pub fn wrapped(words: &str, width: usize) -> Vec<String> {
    let mut lines = vec![String::new()];
    for word in words.split(' ') {
        let line = lines.last_mut().expect("there is a line");
        if !line.is_empty() && line.len() + 1 + word.len() > width {
            lines.push(word.into());
        } else {
            line.push_str(if line.is_empty() { "" } else { " " });
            line.push_str(word);
        }
    }
    lines
}

/// What an entry is, of which refusals speak.
const ENTRIES: &str = "An entry is a block's, in the image's table of blocks; the message names the block. 20, 21 and 22 stand\n\
    where versions before 0.2.0 gave 16, which is no longer given. The loop has an entry of its\n\
    own, after those of the blocks. 25 and 26 are for import, 35 for export; it names the block.";

/// The library's refusals, by number.
pub fn refusals() -> String {
    let refusals = Refusal::NUMBERS.iter().filter_map(|number| Refusal::from_number(*number, 0));
    let line = |refusal: Refusal| format!("{:>4}  {}\n", refusal.number(), refusal.message());
    format!("{}\n{ENTRIES}\n", refusals.map(line).collect::<String>())
}
