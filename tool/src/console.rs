//! What a command says: words on standard output or standard error, or one JSON object.

use crate::failure::{Failure, Status};
use crate::json::{Fields, Json, path_fields, refusal_fields};
use crate::lines::Lines;
use crate::memory;
use crate::paint::{Colour, Paint, Stream, knows_escapes};
use crate::progress;
use std::cell::RefCell;
use std::ffi::{OsStr, OsString};
use std::io::{self, BufWriter, Write};

/// Where the words of an answer go.
#[derive(Clone, Copy, PartialEq, Eq)]
pub enum Words {
    /// To standard output: they are what was asked for.
    Asked,
    /// To standard output, unless quiet: the exit status says the same.
    Status,
    /// To standard error, unless quiet: a file is what was asked for.
    Summary,
}

/// What was said, and where it goes.
pub type Said = Vec<(Stream, Vec<u8>)>;

/// How to speak.
pub struct Console {
    pub command: &'static str,
    pub quiet: bool,
    pub json: bool,
    notes: RefCell<Vec<String>>,
    /// Kept to be written later, where several files are worked on at once; and the file.
    kept: Option<RefCell<Said>>,
    input: Option<OsString>,
}

impl Console {
    pub fn new(command: &'static str, quiet: bool, json: bool) -> Self {
        Self { command, quiet, json, notes: RefCell::default(), kept: None, input: None }
    }

    /// The same, for one of many files: what it says is kept.
    pub fn for_one(command: &'static str, quiet: bool, json: bool, input: &OsStr) -> Self {
        let kept = Some(RefCell::default());
        Self { kept, input: Some(input.into()), ..Self::new(command, quiet, json) }
    }

    /// What was kept.
    pub fn said(self) -> Said {
        self.kept.map(RefCell::into_inner).unwrap_or_default()
    }

    /// Whether to show progress.
    pub fn shows_progress(&self) -> bool {
        let shows = !self.quiet && !self.json && self.kept.is_none();
        shows && Stream::Err.is_terminal() && knows_escapes()
    }

    /// Says something that is no failure.
    pub fn note(&self, note: String) {
        if self.json {
            self.notes.borrow_mut().push(note);
        } else if !self.quiet {
            let word = Paint::of(Stream::Err).text(Colour::Warning, "note:");
            let _ = self.say(Stream::Err, format!("doilycairn: {word} {note}\n").into_bytes());
        }
    }

    /// Gives the answer, in words or as an object.
    pub fn answer(
        &self,
        status: Status,
        fields: Fields,
        place: Words,
        words: impl FnOnce(&mut dyn Write) -> io::Result<()>,
    ) -> Result<Status, Failure> {
        if self.json {
            self.lines(|out| self.object(status, fields).write_line(out))?;
        } else if place == Words::Asked || (place == Words::Status && !self.quiet) {
            self.lines(words)?;
        } else if !self.quiet {
            let mut text = vec![];
            let _ = words(&mut text).and_then(|()| self.say(Stream::Err, text));
        }
        Ok(status)
    }

    /// Says why the command failed; in words too, where the object cannot be written.
    pub fn fail(&self, failure: &Failure) {
        let mut error = refusal_fields(failure.refusal);
        error.push(("message", Json::text(&failure.message)));
        let told = self.json && {
            let input = self.input.as_deref().map(|input| path_fields("input", "input_hex", input));
            let fields =
                input.into_iter().flatten().chain([("error", Json::Object(error))]).collect();
            let object = self.object(failure.status, fields);
            self.lines(|out| object.write_line(out)).is_ok()
        };
        if !told && !failure.silent {
            let word = Paint::of(Stream::Err).text(Colour::Bad, "doilycairn:");
            let line = format!("{word} {}\n", failure.message);
            let _ = self.say(Stream::Err, line.into_bytes());
        }
    }

    /// Writes lines to standard output.
    fn lines(&self, words: impl FnOnce(&mut dyn Write) -> io::Result<()>) -> Result<(), Failure> {
        if self.kept.is_none() {
            return standard_output(words);
        }
        let mut text = memory::Text::default();
        words(&mut text).map_err(|error| match error.kind() {
            io::ErrorKind::OutOfMemory => memory::short(text.0.len() as u64),
            _ => Failure::io("write", "standard output", &error),
        })?;
        self.say(Stream::Out, text.0)
            .map_err(|error| Failure::io("write", "standard output", &error))
    }

    /// Says it in one write, or keeps it.
    fn say(&self, stream: Stream, text: Vec<u8>) -> io::Result<()> {
        match &self.kept {
            Some(kept) => kept.borrow_mut().push((stream, text)),
            None => write(stream, &text)?,
        }
        Ok(())
    }

    /// The object: command and status, the fields, the notes.
    fn object<'a>(&self, status: Status, fields: Fields<'a>) -> Json<'a> {
        let mut all = vec![
            ("command", Json::text(self.command)),
            ("status", Json::Whole(i64::from(status as u8))),
        ];
        all.extend(fields);
        all.push(("notes", Json::list(self.notes.take().into_iter().map(Json::Text))));
        Json::Object(all)
    }
}

/// Writes at once what was said, where no progress is shown.
pub fn write(stream: Stream, text: &[u8]) -> io::Result<()> {
    progress::clear();
    match stream {
        Stream::Err => io::stderr().write_all(text),
        Stream::Out => {
            let mut out = Lines::new(io::stdout().lock());
            out.write_all(text)?;
            out.flush()
        }
    }
}

/// Writes lines to standard output, to its end.
pub fn standard_output(
    words: impl FnOnce(&mut dyn Write) -> io::Result<()>,
) -> Result<(), Failure> {
    to_end(Lines::new(io::stdout().lock()), words)
}

/// Writes bytes to standard output, to its end.
pub fn standard_bytes(bytes: impl FnOnce(&mut dyn Write) -> io::Result<()>) -> Result<(), Failure> {
    to_end(BufWriter::new(io::stdout().lock()), bytes)
}

fn to_end(
    mut out: impl Write,
    body: impl FnOnce(&mut dyn Write) -> io::Result<()>,
) -> Result<(), Failure> {
    body(&mut out)
        .and_then(|()| out.flush())
        .map_err(|error| Failure::io("write", "standard output", &error))
}
