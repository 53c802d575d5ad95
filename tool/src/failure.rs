//! Why a command failed, and the exit statuses.

use doilycairn::Refusal;
use std::io;

/// The exit statuses, as [`STATUSES`] lists them.
#[derive(Clone, Copy, Debug, PartialEq, Eq)]
#[repr(u8)]
pub enum Status {
    /// Done, or the answer is yes.
    Done = 0,
    /// The answer is no: the clips differ, the file is not sound.
    No = 1,
    /// The command line is wrong.
    Usage = 2,
    /// An input is not what the command takes.
    Input = 3,
    /// The library refused, by a number.
    Refused = 4,
    /// Reading or writing failed, or memory is short.
    Io = 5,
}

/// What the exit statuses mean, from 0 on.
pub const STATUSES: [&str; 6] = [
    "done; the answer is yes",
    "the answer is no: the clips differ (same), the image is not sound or, with --strict, has a click (check), a sample is beyond its bound (encode --verify)",
    "the command line is wrong",
    "an input is not what the command takes: no WAV file of that kind, no coefficients, no loop, clips that do not fit together",
    "the library refuses, by the number that the message names (`doilycairn help refusals` lists them)",
    "reading or writing failed, or memory is short",
];

/// Why a command failed.
#[derive(Debug)]
pub struct Failure {
    pub status: Status,
    /// The library's refusal, if it was one.
    pub refusal: Option<Refusal>,
    pub message: String,
    /// Not worth words: the reader of a pipe went away.
    pub silent: bool,
}

impl Failure {
    fn new(status: Status, message: String) -> Self {
        Self { status, refusal: None, message, silent: false }
    }

    /// The command line is wrong.
    pub fn usage(message: impl Into<String>) -> Self {
        Self::new(Status::Usage, message.into())
    }

    /// An input is not what the command takes.
    pub fn input(name: &str, message: impl AsRef<str>) -> Self {
        Self::new(Status::Input, format!("{name}: {}", message.as_ref()))
    }

    /// The library refused this input.
    pub fn refused(name: &str, refusal: Refusal) -> Self {
        let message = format!("{name}: {refusal}");
        Self { refusal: Some(refusal), ..Self::new(Status::Refused, message) }
    }

    /// Reading or writing failed.
    pub fn io(doing: &str, name: &str, error: &io::Error) -> Self {
        let silent = doing == "write" && error.kind() == io::ErrorKind::BrokenPipe;
        Self { silent, ..Self::new(Status::Io, format!("cannot {doing} {name}: {error}")) }
    }

    /// Memory is short.
    pub fn memory(message: String) -> Self {
        Self::new(Status::Io, message)
    }

    /// The same, with more words.
    pub fn with(mut self, more: impl AsRef<str>) -> Self {
        self.message.push_str(more.as_ref());
        self
    }
}
