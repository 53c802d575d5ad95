//! Completions for zsh.

use super::{brief, quoted};
use crate::command::{self, Command};
use crate::options::{Kind, Opt};
use std::fmt::Write;

const HEAD: &str = r"#compdef doilycairn
# Completions of doilycairn for zsh.

_doilycairn() {
    local -a commands
    commands=(
";

const MIDDLE: &str = r"    )
    if (( CURRENT == 2 )); then
        _describe command commands
        return
    fi
    local command=$words[2]
    shift words
    (( CURRENT-- ))
    case $command in
";

const TAIL: &str = r#"        help) _describe command commands ;;
        completions) _values shell bash zsh fish ;;
    esac
}

_doilycairn "$@"
"#;

pub fn script() -> String {
    let mut text = String::from(HEAD);
    let others = [
        ("help", "help of a command"),
        ("man", "the manual page"),
        ("completions", "completions of a shell"),
    ];
    let names = command::ALL.iter().map(|command| (command.name, command.summary)).chain(others);
    for (name, summary) in names {
        let _ = writeln!(text, "        {}", quoted(&format!("{name}:{summary}")));
    }
    text += MIDDLE;
    command::ALL.iter().for_each(|command| of(&mut text, command));
    text + TAIL
}

fn of(text: &mut String, command: &Command) {
    let _ = writeln!(text, "        {})\n            _arguments \\", command.name);
    for opt in command.all_options() {
        let _ = writeln!(text, "                {} \\", quoted(&argument(opt)));
    }
    let _ = writeln!(text, "                '*:file:_files'\n            ;;");
}

/// An option as `_arguments` takes it.
fn argument(opt: &Opt) -> String {
    let said = brief(opt).replace('[', "(").replace(']', ")");
    match opt.value {
        None => format!("{}[{said}]", opt.name),
        Some(value) => {
            let action = match value.kind {
                Kind::Plain => "",
                Kind::File => "_files",
                Kind::Folder => "_files -/",
            };
            format!("{}=[{said}]:{}:{action}", opt.name, value.name)
        }
    }
}
