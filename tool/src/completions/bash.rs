//! Completions for bash.

use crate::command;
use crate::options::{Kind, Opt};
use std::fmt::Write;

const HEAD: &str = r#"# Completions of doilycairn for bash.

_doilycairn() {
    local cur=${COMP_WORDS[COMP_CWORD]} prev=${COMP_WORDS[COMP_CWORD-1]} command='' words='' word
    for word in "${COMP_WORDS[@]:1:COMP_CWORD-1}"; do
        if [[ -z $command && $word != -* ]]; then
            command=$word
        fi
    done
"#;

const TAIL: &str = r#"    case $prev in
        @PLAIN@) return ;;
        @FOLDERS@)
            mapfile -t COMPREPLY < <(compgen -d -- "$cur")
            return
            ;;
    esac
    if [[ -z $command || $cur == -* || $command == help || $command == completions ]]; then
        mapfile -t COMPREPLY < <(compgen -W "$words" -- "$cur")
    fi
}

complete -o filenames -o bashdefault -o default -F _doilycairn doilycairn
"#;

pub fn script() -> String {
    let mut text = String::from(HEAD);
    let names: Vec<&str> = command::ALL.iter().map(|command| command.name).collect();
    let names = names.join(" ");
    text += "    case $command in\n";
    for command in command::ALL {
        let options: Vec<&str> = command.all_options().map(|opt| opt.name).collect();
        let _ = writeln!(text, "        {}) words='{}' ;;", command.name, options.join(" "));
    }
    let _ = writeln!(text, "        help) words='{names} refusals' ;;");
    let _ = writeln!(text, "        completions) words='bash zsh fish' ;;");
    let _ = writeln!(text, "        '') words='{names} help man completions --help --version' ;;");
    text += "    esac\n";
    text + &TAIL
        .replace("@PLAIN@", &of_kind(Kind::Plain))
        .replace("@FOLDERS@", &of_kind(Kind::Folder))
}

/// The options whose values are of a kind, as a pattern.
fn of_kind(kind: Kind) -> String {
    let is_kind = |opt: &&Opt| opt.value.is_some_and(|value| value.kind == kind);
    let options = command::ALL.into_iter().flat_map(|command| command.options).filter(is_kind);
    let mut names: Vec<&str> = options.map(|opt| opt.name).collect();
    names.sort_unstable();
    names.dedup();
    names.join(" | ")
}
