//! Calls on a clip, as lines of the list and of the answers.

use crate::machine::Machine;
use crate::state::{Start, State, bytes, hexadecimal};
use oracle::list::Listed;

/// The image buffer's length, and the longest piece.
pub const MOST_ROOM: usize = 4096;
const LONGEST_PIECE: usize = 2048;

/// The samples of a line.
const LINE: usize = 42;

/// A call with the length of the buffer that it is lent and whether the answer has its bytes, or what is put before a call.
#[derive(Debug, Clone, PartialEq)]
pub enum Step {
    /// Fills the image buffer.
    New,
    /// Puts a state.
    Put(State),
    Start {
        start: Start,
        room: usize,
        shown: bool,
    },
    Feed {
        piece: Vec<i16>,
        room: usize,
        shown: bool,
    },
    Close {
        room: usize,
        shown: bool,
    },
}

/// Steps on a new buffer.
#[derive(Debug, Clone, Default, PartialEq)]
pub struct Case(pub Vec<Step>);

impl Case {
    /// A clip from start to close, on a buffer that is longer by `spare` bytes. The bytes are written at its close.
    pub fn clip(start: &Start, pieces: &[&[i16]], spare: usize) -> Self {
        let room = start.image_size() as usize + spare;
        let mut steps = vec![Step::New, Step::Start { start: start.clone(), room, shown: false }];
        let feed = |piece: &&[i16]| Step::Feed { piece: piece.to_vec(), room, shown: false };
        steps.extend(pieces.iter().map(feed));
        steps.push(Step::Close { room, shown: true });
        Self(steps)
    }
}

impl Listed for Case {
    fn inputs(&self) -> String {
        self.0.iter().map(lines).collect()
    }

    fn answers(&self) -> String {
        let mut machine = Machine::default();
        let mut lines = String::new();
        for step in &self.0 {
            let code = machine.take(step);
            if let Some((room, shown)) = step.lent() {
                lines.push_str(&answer(code, &machine, room, shown));
            }
        }
        lines
    }
}

impl Step {
    /// The length of the buffer that a call is lent, and whether its bytes are written.
    pub fn lent(&self) -> Option<(usize, bool)> {
        match *self {
            Self::New | Self::Put(_) => None,
            Self::Start { room, shown, .. }
            | Self::Feed { room, shown, .. }
            | Self::Close { room, shown } => Some((room, shown)),
        }
    }
}

/// The lines of a step.
fn lines(step: &Step) -> String {
    let lent = step.lent().unwrap_or_default();
    match step {
        Step::New => line('n', lent, 0, &[]),
        Step::Put(state) => {
            line('p', lent, state.closed.into(), &state.record()) + &loop_line(state)
        }
        Step::Start { start, .. } => {
            let state = State { block: start.size, ..start.state() };
            loop_line(&state) + &line('s', lent, state.looped.present.into(), &state.record())
        }
        Step::Feed { piece, .. } => piece_lines(piece, lent),
        Step::Close { .. } => line('c', lent, 0, &[]),
    }
}

/// The line that puts a state's loop; none where there is nothing to put.
fn loop_line(state: &State) -> String {
    match state.has_loop() {
        true => line('l', (0, false), state.looped.present.into(), &state.loop_record()),
        false => String::new(),
    }
}

/// A piece; the last line feeds it.
fn piece_lines(piece: &[i16], lent: (usize, bool)) -> String {
    assert!(piece.len() <= LONGEST_PIECE);
    let (before, last) = piece.split_at(piece.len().saturating_sub(1) / LINE * LINE);
    let samples =
        |letter, samples: &[i16]| line(letter, lent, samples.len() as u8, &bytes(samples));
    before.chunks(LINE).map(|part| samples('b', part)).chain([samples('f', last)]).collect()
}

/// A line: its letter and record.
fn line(letter: char, (room, shown): (usize, bool), count: u8, rest: &[u8]) -> String {
    assert!(room <= MOST_ROOM);
    let mut record = (room as u16).to_be_bytes().to_vec();
    record.extend([u8::from(shown), count]);
    record.extend(rest);
    record.resize(90, 0);
    format!("{letter}{}\n", hexadecimal(&record))
}

/// The line of an answer.
fn answer(code: u8, machine: &Machine, room: usize, shown: bool) -> String {
    let lent = &machine.image[..room];
    let line = format!("{code:02x} {} {:010x}", machine.state.words(), digest(lent));
    if shown { format!("{line} {}\n", hexadecimal(lent)) } else { line + "\n" }
}

/// Bytes as the digits of a number, modulo a prime.
pub fn digest(bytes: &[u8]) -> u64 {
    bytes.iter().fold(0, |sum, byte| (sum * 1_000_003 + u64::from(*byte) + 1) % 1_099_511_627_689)
}
