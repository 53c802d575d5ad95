//! What a command is, and the list of them.

use crate::args::Args;
use crate::console::Console;
use crate::failure::{Failure, Status};
use crate::options::{COMMON, Opt};

/// Whether a command takes many files.
#[derive(Clone, Copy, Debug, PartialEq, Eq)]
pub enum Many {
    No,
    /// With `--into`: every operand is an input.
    Into,
    /// Always: its one operand may be given often.
    Inputs,
}

/// A command.
pub struct Command {
    pub name: &'static str,
    /// The names of its operands.
    pub operands: &'static [&'static str],
    pub many: Many,
    /// What it does, in a few words.
    pub summary: &'static str,
    /// What it does, in paragraphs.
    pub about: &'static str,
    /// Its own options, beside those of every command.
    pub options: &'static [Opt],
    /// What is to be known beside the options, in paragraphs.
    pub notes: &'static str,
    pub run: fn(&Args, &Console) -> Result<Status, Failure>,
}

/// Every command.
pub const ALL: [&Command; 9] = [
    &crate::encode::COMMAND,
    &crate::decode::COMMAND,
    &crate::export::COMMAND,
    &crate::import::COMMAND,
    &crate::info::COMMAND,
    &crate::check::COMMAND,
    &crate::compare::COMMAND,
    &crate::join::COMMAND,
    &crate::trim::COMMAND,
];

/// The command of a name.
pub fn find(name: &str) -> Option<&'static Command> {
    ALL.into_iter().find(|command| command.name == name)
}

impl Command {
    /// Its own options, and those of every command.
    pub fn all_options(&self) -> impl Iterator<Item = &Opt> {
        self.options.iter().chain(&COMMON)
    }

    /// The ways to call it, after its name.
    pub fn usages(&self) -> Vec<String> {
        let plain = self.operands.join(" ");
        match (self.many, self.operands.first()) {
            (Many::Into, Some(input)) => vec![plain, format!("--into FOLDER {input}...")],
            (Many::Inputs, _) => vec![format!("{plain}...")],
            _ => vec![plain],
        }
    }
}
