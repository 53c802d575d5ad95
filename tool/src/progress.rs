//! Progress of long work, on a terminal.
//!
//! The line stands below the cursor, which stays on an empty line. So whatever ends the program leaves nothing behind: a shell that
//! [`Guard`] starts waits for the end and clears what is below the cursor, before the prompt comes or after it.

use crate::console::Console;
use std::io::{self, Write};
use std::process::{Child, Command, Stdio};
use std::sync::atomic::{AtomicBool, Ordering};
use std::time::{Duration, Instant};

/// Short work shows nothing.
const PATIENCE: Duration = Duration::from_millis(400);
const LONG: usize = 1 << 19;
const PAUSE: Duration = Duration::from_millis(100);

/// Whether a line is shown.
static SHOWN: AtomicBool = AtomicBool::new(false);

/// Takes the line away, if one is shown.
pub fn clear() {
    if SHOWN.swap(false, Ordering::Relaxed) {
        let _ = io::stderr().write_all(b"\x1b[J");
    }
}

/// Shows the line, below the cursor.
fn show(text: &str) {
    SHOWN.store(true, Ordering::Relaxed);
    let _ = io::stderr().write_all(format!("\n\x1b[K{text}\r\x1b[A").as_bytes());
}

/// A line that tells how far the work is; it goes when the work is done.
pub struct Progress {
    label: &'static str,
    total: usize,
    next: Option<Instant>,
    guard: Option<Guard>,
}

impl Progress {
    pub fn new(console: &Console, label: &'static str, total: usize) -> Self {
        let next = console.shows_progress().then(|| Instant::now() + PATIENCE);
        Self { label, total, next, guard: None }
    }

    /// The last step of long work, of which no part can be told.
    pub fn last_step(&mut self, label: &str) {
        if self.next.is_some() && self.total > LONG {
            self.shown(label);
        }
    }

    /// So much is done.
    pub fn at(&mut self, done: usize) {
        let now = Instant::now();
        if self.next.is_some_and(|next| now >= next) {
            let percent = 100 * done as u64 / self.total.max(1) as u64;
            self.shown(&format!("{} {percent:3} %", self.label));
            self.next = Some(now + PAUSE);
        }
    }

    /// So many of the files are done.
    pub fn files(&mut self, done: usize) {
        if self.next.is_some_and(|next| Instant::now() >= next) {
            self.shown(&format!("{}: {done} of {} files done", self.label, self.total));
        }
    }

    fn shown(&mut self, text: &str) {
        self.guard = self.guard.take().or_else(Guard::start);
        show(text);
    }
}

impl Drop for Progress {
    fn drop(&mut self) {
        clear();
    }
}

/// A shell that clears the line where this program ends without doing so: interrupted, ended or killed. It has the other end of a pipe,
/// which closes with this program; the word `done` is the end of its work.
struct Guard(Child);

const SCRIPT: &str =
    r#"trap '' INT QUIT TERM; read -r word; [ -n "$word" ] || printf '\033[J' >&2"#;

impl Guard {
    fn start() -> Option<Self> {
        let mut shell = Command::new("/bin/sh");
        shell.arg("-c").arg(SCRIPT);
        shell.stdin(Stdio::piped()).stdout(Stdio::null()).spawn().ok().map(Self)
    }
}

impl Drop for Guard {
    fn drop(&mut self) {
        if let Some(mut pipe) = self.0.stdin.take() {
            let _ = pipe.write_all(b"done\n");
        }
        let _ = self.0.wait();
    }
}
