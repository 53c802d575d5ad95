//! Many files at once: as many workers as there are cores, what they say in the order of the files.

use crate::args::Args;
use crate::console::{self, Console, Said, Words};
use crate::failure::{Failure, Status};
use crate::input;
use crate::json::Json;
use crate::progress::Progress;
use crate::text::{count, counted};
use std::ffi::{OsStr, OsString};
use std::num::NonZero;
use std::path::{Path, PathBuf};
use std::sync::atomic::{AtomicUsize, Ordering};
use std::sync::mpsc::{self, Receiver, RecvTimeoutError, Sender};
use std::thread;
use std::time::Duration;

/// How often the progress is looked at.
const REFRESH: Duration = Duration::from_millis(100);

/// An input, and its output where there is one.
pub struct Job<'a> {
    pub input: &'a OsStr,
    pub output: Option<OsString>,
}

/// What is done with a file.
pub trait Work: Fn(&Job, &Console) -> Result<Status, Failure> + Sync {}
impl<F: Fn(&Job, &Console) -> Result<Status, Failure> + Sync> Work for F {}

/// Does it with the one input and its output, or with every input of `--into`; outputs have this extension.
pub fn with_output(
    args: &Args,
    console: &Console,
    extension: &str,
    work: impl Work,
) -> Result<Status, Failure> {
    let jobs = workers(args)?;
    let Some(folder) = args.value("--into") else {
        let output = Some(args.operands[1].clone());
        return work(&Job { input: &args.operands[0], output }, console);
    };
    let outputs = outputs(&args.operands, Path::new(folder), extension)?;
    let made = std::fs::create_dir_all(folder);
    made.map_err(|error| Failure::io("write", &input::name(folder), &error))?;
    let pairs = args.operands.iter().zip(outputs);
    let files = pairs.map(|(input, output)| Job { input, output: Some(output.into()) });
    many(&files.collect::<Vec<_>>(), console, jobs, work)
}

/// Does it with the one input, or with every one.
pub fn inputs(args: &Args, console: &Console, work: impl Work) -> Result<Status, Failure> {
    let jobs = workers(args)?;
    match &args.operands[..] {
        [input] => work(&Job { input, output: None }, console),
        inputs if inputs.iter().any(|input| input == "-") => Err(no_standard_input()),
        inputs => {
            let files = inputs.iter().map(|input| Job { input, output: None });
            many(&files.collect::<Vec<_>>(), console, jobs, work)
        }
    }
}

fn no_standard_input() -> Failure {
    Failure::usage("standard input cannot be one of many files")
}

/// How many files are worked on at once.
fn workers(args: &Args) -> Result<usize, Failure> {
    let cores = thread::available_parallelism().map_or(1, NonZero::get);
    Ok(args.number("--jobs", 1..=256)?.map_or(cores, |jobs| jobs as usize))
}

/// The output of each input: its name in the folder, with the extension. No two may be the same.
fn outputs(inputs: &[OsString], folder: &Path, extension: &str) -> Result<Vec<PathBuf>, Failure> {
    let mut outputs: Vec<PathBuf> = vec![];
    let mut seen = std::collections::HashMap::new();
    for input in inputs {
        let Some(name) = Path::new(input).file_name().filter(|_| input != "-") else {
            return Err(no_standard_input());
        };
        let output = folder.join(name).with_extension(extension);
        if let Some(other) = seen.insert(output.clone(), input) {
            let [a, b] = [other, input].map(|path| input::name(path));
            let both = input::name(output.as_os_str());
            return Err(Failure::usage(format!("{a} and {b} would both become {both}")));
        }
        outputs.push(output);
    }
    Ok(outputs)
}

/// How each file's run speaks.
#[derive(Clone, Copy)]
struct Voice {
    command: &'static str,
    quiet: bool,
    json: bool,
}

/// The end of a file's run: its place, its status, what it said.
type Ended = (usize, Status, Said);

/// Does it with all files; the exit status is that of the first that failed.
fn many(files: &[Job], console: &Console, jobs: usize, work: impl Work) -> Result<Status, Failure> {
    let Console { command, quiet, json, .. } = *console;
    let voice = Voice { command, quiet, json };
    let (next, mut report) = (AtomicUsize::new(0), Report::new(console, files.len()));
    let worker = |sender: Sender<Ended>| {
        while let Some((i, file)) = take(files, &next) {
            if sender.send(one(i, file, voice, &work)).is_err() {
                break;
            }
        }
    };
    thread::scope(|scope| {
        let (sender, receiver) = mpsc::channel();
        let start = |_: &usize| {
            let (worker, sender) = (&worker, sender.clone());
            thread::Builder::new().spawn_scoped(scope, move || worker(sender)).is_err()
        };
        // Where no thread can be had, this one works.
        if (0..jobs.min(files.len())).take_while(|i| !start(i)).count() == 0 {
            worker(sender.clone());
        }
        drop(sender);
        report.all(&receiver)
    })?;
    report.summary()
}

/// The next file that nobody has.
fn take<'a, 'b>(files: &'a [Job<'b>], next: &AtomicUsize) -> Option<(usize, &'a Job<'b>)> {
    let i = next.fetch_add(1, Ordering::Relaxed);
    files.get(i).map(|file| (i, file))
}

/// One file of many. What goes wrong with it is told, and ends nothing else.
fn one(i: usize, file: &Job, voice: Voice, work: &impl Work) -> Ended {
    let console = Console::for_one(voice.command, voice.quiet, voice.json, file.input);
    let status = work(file, &console).unwrap_or_else(|failure| {
        console.fail(&failure);
        failure.status
    });
    (i, status, console.said())
}

/// What is told of the files, in their order.
struct Report<'a> {
    console: &'a Console,
    progress: Progress,
    ended: Vec<Option<(Status, Said)>>,
    told: usize,
    done: usize,
    statuses: Vec<Status>,
}

impl<'a> Report<'a> {
    fn new(console: &'a Console, files: usize) -> Self {
        let progress = Progress::new(console, console.command, files);
        let ended = (0..files).map(|_| None).collect();
        Self { console, progress, ended, told: 0, done: 0, statuses: vec![] }
    }

    /// Tells of each file as soon as those before it are told.
    fn all(&mut self, receiver: &Receiver<Ended>) -> Result<(), Failure> {
        loop {
            self.progress.files(self.done);
            match receiver.recv_timeout(REFRESH) {
                Ok((i, status, said)) => self.ended[i] = Some((status, said)),
                Err(RecvTimeoutError::Timeout) => continue,
                Err(RecvTimeoutError::Disconnected) => return Ok(()),
            }
            self.done += 1;
            self.tell()?;
        }
    }

    fn tell(&mut self) -> Result<(), Failure> {
        while let Some((status, said)) = self.ended.get_mut(self.told).and_then(Option::take) {
            for (stream, text) in said {
                let written = console::write(stream, &text);
                written.map_err(|error| Failure::io("write", "standard output", &error))?;
            }
            self.statuses.push(status);
            self.told += 1;
        }
        Ok(())
    }

    /// How many were done; the status is the first that is not 0.
    fn summary(self) -> Result<Status, Failure> {
        let failures = self.statuses.iter().filter(|status| **status != Status::Done);
        let status = failures.clone().next().copied().unwrap_or(Status::Done);
        let (files, failed) = (self.statuses.len() as u64, failures.count() as u64);
        drop(self.progress);
        let fields =
            vec![("files", Json::Whole(files as i64)), ("failed", Json::Whole(failed as i64))];
        self.console.answer(status, fields, Words::Summary, |out| {
            let (files, done) = (counted(files, "file", "files"), count(files - failed));
            writeln!(out, "{files}: {done} done, {} failed", count(failed))
        })
    }
}

#[cfg(test)]
mod tests {
    use super::*;

    #[test]
    fn outputs_have_the_inputs_names() {
        let inputs = ["a/x.wav", "y.b.wav", "z"].map(OsString::from);
        let wanted = ["f/x.dspc", "f/y.b.dspc", "f/z.dspc"].map(PathBuf::from);
        assert_eq!(outputs(&inputs, Path::new("f"), "dspc").unwrap(), wanted);
        let same = ["a/x.wav", "b/x.raw"].map(OsString::from);
        let failure = outputs(&same, Path::new("f"), "dspc").unwrap_err();
        assert_eq!(failure.message, "a/x.wav and b/x.raw would both become f/x.dspc");
        for none in ["-", "..", "/"] {
            assert!(outputs(&[none.into()], Path::new("f"), "dspc").is_err());
        }
    }
}
