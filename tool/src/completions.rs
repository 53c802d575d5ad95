//! What shells complete, made from the table of commands.

mod bash;
mod fish;
mod zsh;

use crate::options::Opt;

/// The completions for a shell.
pub fn of(shell: &str) -> Option<String> {
    match shell {
        "bash" => Some(bash::script()),
        "zsh" => Some(zsh::script()),
        "fish" => Some(fish::script()),
        _ => None,
    }
}

pub const SHELLS: &str = "bash, zsh and fish";

/// What is said of an option in one short line.
fn brief(opt: &Opt) -> &str {
    opt.help.split([';', ':', ',']).next().unwrap_or(opt.help)
}

/// A text within single quotes of a shell.
fn quoted(text: &str) -> String {
    format!("'{}'", text.replace('\'', r"'\''"))
}

#[cfg(test)]
mod tests {
    use super::brief;
    use crate::command;

    #[test]
    fn what_is_said_of_an_option_is_no_half_of_a_bracket() {
        for opt in command::ALL.iter().flat_map(|command| command.all_options()) {
            let [opened, closed] = ['(', ')'].map(|bracket| brief(opt).matches(bracket).count());
            assert_eq!(opened, closed, "{}", brief(opt));
        }
    }
}
