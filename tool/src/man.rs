//! The manual page, made from the table of commands.

use crate::command::{self, Command};
use crate::failure::STATUSES;
use crate::help::{ABOUT, FILES, TOPICS, wrapped};
use crate::options::{COMMON, Opt};
use std::fmt::Write;

/// Letters in a line of the source.
const WIDTH: usize = 78;

/// The day of the version.
const DATE: &str = "2026-11-16";

/// The page, for `man`.
pub fn page() -> String {
    let version = env!("CARGO_PKG_VERSION");
    let head = format!("\"{DATE}\" \"doilycairn {version}\" \"User Commands\"");
    let mut page = format!(".TH DOILYCAIRN 1 {head}\n");
    let names: Vec<&str> = command::ALL.iter().map(|command| command.name).collect();
    section(&mut page, "NAME");
    let _ =
        writeln!(page, "doilycairn \\- {}", escaped("encodes, decodes and edits DSP ADPCM clips"));
    section(&mut page, "SYNOPSIS");
    page += ".B doilycairn\n.I COMMAND\n.RI [ OPTIONS ]\n.I FILES\n";
    section(&mut page, "DESCRIPTION");
    paragraph(&mut page, &format!("{ABOUT} The commands are {}.", names.join(", ")));
    paragraph(&mut page, FILES);
    section(&mut page, "OPTIONS OF EVERY COMMAND");
    COMMON.iter().for_each(|opt| option(&mut page, opt));
    section(&mut page, "COMMANDS");
    command::ALL.iter().for_each(|command| of(&mut page, command));
    section(&mut page, "OTHER CALLS");
    for (call, what) in TOPICS.into_iter().chain([("--version", "the version")]) {
        let _ = writeln!(page, ".TP\n.B {}\n{}", escaped(call), line(what));
    }
    section(&mut page, "EXIT STATUS");
    for (i, what) in STATUSES.iter().enumerate() {
        let _ = writeln!(page, ".TP\n.B {i}\n{}", line(what));
    }
    section(&mut page, "ENVIRONMENT");
    let _ = writeln!(
        page,
        ".TP\n.B NO_COLOR\n{}",
        line("where set and not empty, no colours on a terminal")
    );
    page
}

fn section(page: &mut String, name: &str) {
    let _ = writeln!(page, ".SH {name}");
}

/// A command: how it is called, what it does, its options.
fn of(page: &mut String, command: &Command) {
    let _ = writeln!(page, ".SS {}", command.name);
    for (i, usage) in command.usages().iter().enumerate() {
        let gap = if i == 0 { "" } else { ".br\n" };
        let _ = writeln!(
            page,
            "{gap}.B doilycairn {}\n{}",
            command.name,
            line(&format!("[OPTIONS] {usage}"))
        );
    }
    command.about.split("\n\n").for_each(|part| paragraph(page, part));
    command.options.iter().for_each(|opt| option(page, opt));
    let notes = command.notes.split("\n\n").filter(|part| !part.is_empty());
    notes.for_each(|part| paragraph(page, part));
}

fn option(page: &mut String, opt: &Opt) {
    let short = match opt.short {
        "" => String::new(),
        short => format!("\\fB{}\\fR, ", escaped(short)),
    };
    let value = opt.value.map(|value| format!(" \\fI{}\\fR", escaped(value.name)));
    let name = format!("{short}\\fB{}\\fR{}", escaped(opt.name), value.unwrap_or_default());
    let _ = writeln!(page, ".TP\n{name}\n{}", line(opt.help));
}

/// A paragraph; a line that begins with a blank stays as it is.
fn paragraph(page: &mut String, words: &str) {
    let first = page.lines().last().is_some_and(|line| line.starts_with(".SH"));
    page.push_str(if first { "" } else { ".PP\n" });
    for part in words.split('\n') {
        match part.strip_prefix("  ") {
            Some(example) => {
                let _ = writeln!(page, ".RS 4\n.nf\n{}\n.fi\n.RE", escaped(example));
            }
            None => {
                let _ = writeln!(page, "{}", line(part));
            }
        }
    }
}

/// A text in lines, none of which begins as a macro does.
fn line(text: &str) -> String {
    let guarded = |line: String| match line.starts_with(['.', '\'']) {
        true => format!("\\&{line}"),
        false => line,
    };
    let lines = wrapped(&escaped(text), WIDTH).into_iter().map(guarded);
    lines.collect::<Vec<_>>().join("\n")
}

/// A text with the characters that troff gives a meaning written in another way.
fn escaped(text: &str) -> String {
    let text = text.replace('\\', "\\e").replace('-', "\\-").replace('\'', "\\(aq");
    text.replace('`', "\\(ga").replace('^', "\\(ha").replace('±', "\\(+-").replace('×', "\\(mu")
}
