//! A call of the program: which command, help or version it asks for.

use crate::args::{self, Args};
use crate::command::{self, Command, Many};
use crate::completions;
use crate::console::{Console, standard_output};
use crate::failure::{Failure, Status};
use crate::options::{COMMON, Opt, flag};
use crate::suggest::nearest;
use crate::text::shown;
use crate::{help, man};
use std::ffi::{OsStr, OsString};
use std::os::unix::ffi::OsStrExt;

const VERSION: &str = concat!("doilycairn ", env!("CARGO_PKG_VERSION"), "\n");

/// The options that stand alone.
const ALONE: [Opt; 1] = [Opt { short: "-V", ..flag("--version", "the version") }];

/// The calls that are no commands.
const OTHERS: [&str; 3] = ["help", "man", "completions"];

/// Does what the words ask for. Options may stand before the command.
pub fn call(words: &[OsString]) -> Status {
    let at = command_at(words);
    let (before, rest) = words.split_at(at);
    let Some((name, after)) = rest.split_first() else { return alone(before) };
    let words: Vec<OsString> = after.iter().chain(before).cloned().collect();
    match (name.to_str(), name.to_str().and_then(command::find)) {
        (_, Some(command)) => run(command, &in_order(before, after)),
        (Some("help"), _) => topic(&words),
        (Some("man"), _) => manual(&words),
        (Some("completions"), _) => shell(&words),
        _ => no_command(name, json(&words)),
    }
}

/// The options from before the command, and then the words after it.
fn in_order(before: &[OsString], after: &[OsString]) -> Vec<OsString> {
    before.iter().chain(after).cloned().collect()
}

/// Where the command stands: the first word that is neither an option nor its value.
fn command_at(words: &[OsString]) -> usize {
    let mut at = 0;
    while let Some(word) = words.get(at).filter(|word| word.as_bytes().starts_with(b"-")) {
        let (name, joined) = args::split(word);
        let opt = every_option().find(|opt| opt.name.as_bytes() == name);
        let takes = joined.is_none() && opt.is_some_and(|opt| opt.value.is_some());
        at += if takes { 2 } else { 1 };
    }
    at.min(words.len())
}

/// The options of all commands.
fn every_option() -> impl Iterator<Item = &'static Opt> {
    command::ALL.into_iter().flat_map(|command| command.options).chain(&COMMON).chain(&ALONE)
}

fn json(words: &[OsString]) -> bool {
    words.iter().take_while(|word| *word != "--").any(|word| word == "--json")
}

/// Runs a command.
fn run(command: &Command, words: &[OsString]) -> Status {
    let parsed = Args::parse(words, command.options);
    if parsed.as_ref().is_ok_and(|args| args.has("--help")) {
        return print(&help::of(command));
    }
    let quiet = parsed.as_ref().is_ok_and(|args| args.has("--quiet"));
    let json = parsed.as_ref().map_or_else(|_| json(words), |args| args.has("--json"));
    let console = Console::new(command.name, quiet, json);
    let answer = parsed.and_then(|args| {
        operands(command, &args)?;
        (command.run)(&args, &console)
    });
    answer.unwrap_or_else(|failure| failed(&console, failure))
}

/// As many operands as the command has, or one at least where it takes many.
fn operands(command: &Command, args: &Args) -> Result<(), Failure> {
    match command.many {
        Many::Inputs => args.expect_some(command.operands[0]),
        Many::Into if args.has("--into") => args.expect_some(command.operands[0]),
        Many::Into => args.expect(command.operands).map_err(|failure| match args.operands.len() {
            0..3 => failure,
            _ => failure.with(": many files go to a folder, by --into FOLDER"),
        }),
        Many::No => args.expect(command.operands),
    }
}

/// Says why, and where to look.
fn failed(console: &Console, failure: Failure) -> Status {
    let mark = if failure.message.ends_with('?') { " See" } else { "; see" };
    let failure = match (failure.status, console.command) {
        (Status::Usage, "") => failure.with(format!("{mark} `doilycairn --help`")),
        (Status::Usage, name) => failure.with(format!("{mark} `doilycairn {name} --help`")),
        _ => failure,
    };
    console.fail(&failure);
    failure.status
}

fn print(text: &str) -> Status {
    let console = Console::new("", false, false);
    match standard_output(|out| out.write_all(text.as_bytes())) {
        Ok(()) => Status::Done,
        Err(failure) => failed(&console, failure),
    }
}

/// Options without a command.
fn alone(words: &[OsString]) -> Status {
    let known = |word: &&OsString| {
        let name = args::split(word).0;
        every_option().any(|opt| name == opt.name.as_bytes() || name == opt.short.as_bytes())
    };
    let has = |names: [&str; 2]| words.iter().any(|word| names.iter().any(|name| word == name));
    let failure = match words.iter().find(|word| !known(word)) {
        Some(wrong) => args::unknown(wrong, COMMON.iter().chain(&ALONE)),
        None if has(["--help", "-h"]) => return print(&help::program()),
        None if has(["--version", "-V"]) => return print(VERSION),
        None => Failure::usage("a command is missing"),
    };
    failed(&Console::new("", false, json(words)), failure)
}

/// `help`, `help COMMAND` and `help refusals`.
fn topic(words: &[OsString]) -> Status {
    match words {
        [] => print(&help::program()),
        [name] if name == "refusals" => print(&help::refusals()),
        [name] => match name.to_str().and_then(command::find) {
            Some(command) => print(&help::of(command)),
            None => no_command(name, false),
        },
        _ => alone(&[]),
    }
}

/// `man`.
fn manual(words: &[OsString]) -> Status {
    match words.first() {
        None => print(&man::page()),
        Some(word) => {
            let failure = Failure::usage(format!("'{}' is one word too many", shown(word)));
            failed(&Console::new("", false, false), failure)
        }
    }
}

/// `completions SHELL`.
fn shell(words: &[OsString]) -> Status {
    match words.first().and_then(|word| word.to_str()).and_then(completions::of) {
        Some(script) if words.len() == 1 => print(&script),
        _ => {
            let message = format!("there are completions for {}", completions::SHELLS);
            failed(&Console::new("", false, false), Failure::usage(message))
        }
    }
}

fn no_command(name: &OsStr, json: bool) -> Status {
    let failure = Failure::usage(format!("'{}' is no command", shown(name)));
    let known = command::ALL.into_iter().map(|command| command.name).chain(OTHERS);
    let failure = match nearest(&name.to_string_lossy(), known) {
        Some(meant) => failure.with(format!("; did you mean '{meant}'?")),
        None => failure,
    };
    failed(&Console::new("", false, json), failure)
}
