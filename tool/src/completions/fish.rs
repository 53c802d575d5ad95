//! Completions for fish.

use super::{brief, quoted};
use crate::command;
use crate::options::{Kind, Opt};
use std::fmt::Write;

pub fn script() -> String {
    let mut text = String::from("# Completions of doilycairn for fish.\n\n");
    let others = [
        ("help", "help of a command"),
        ("man", "the manual page"),
        ("completions", "completions of a shell"),
    ];
    let names = command::ALL.iter().map(|command| (command.name, command.summary)).chain(others);
    for (name, summary) in names {
        let said = quoted(summary);
        let _ = writeln!(
            text,
            "complete -c doilycairn -f -n __fish_use_subcommand -a {name} -d {said}"
        );
    }
    for command in command::ALL {
        let seen = format!("__fish_seen_subcommand_from {}", command.name);
        for opt in command.all_options() {
            let _ = writeln!(text, "complete -c doilycairn -n '{seen}' {}", option(opt));
        }
    }
    let shells = "__fish_seen_subcommand_from completions";
    let _ = writeln!(text, "complete -c doilycairn -f -n '{shells}' -a 'bash zsh fish'");
    text
}

/// An option as `complete` takes it.
fn option(opt: &Opt) -> String {
    let short = match opt.short.strip_prefix('-') {
        Some(short) => format!(" -s {short}"),
        None => String::new(),
    };
    let value = match opt.value.map(|value| value.kind) {
        None => "",
        Some(Kind::Plain) => " -x",
        Some(Kind::File) => " -r -F",
        Some(Kind::Folder) => " -x -a '(__fish_complete_directories)'",
    };
    format!("-l {}{short}{value} -d {}", opt.name.trim_start_matches('-'), quoted(brief(opt)))
}
