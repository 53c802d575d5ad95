//! Lists of clips, and the Rust's records and coefficients of them.
//!
//! A line of a list has 60 bytes: a letter, a count of 0 to 14 in two decimal digits, fourteen samples
//! of four hexadecimal digits each (two's complement, those above the count zero), and the line's end.
//! `n` starts a new clip, `b` adds samples to the piece that is to come, `m` does the same and measures
//! that piece, `a` asks for coefficients.
//!
//! An asking is answered by one line: the number of records, the one of the filled up frame with them;
//! each record's two floats, 16 digits each, for every NaN 7ff8000000000000; and sixteen coefficients,
//! four digits each. A piece for which the store has no room is answered by `refused 3`; the other
//! pieces have no answer.

mod cases;
mod cuts;
mod kinds;
mod random;

pub use cases::cases;
pub use cuts::Cut;
pub use random::random_clip;

use oracle::list::Listed;
use oracle::{Measured, SAMPLES_PER_FRAME, measure};

/// Records for which the replay program has room.
pub const ROOM: usize = 64;

/// The longest piece that the replay program takes.
pub const LONGEST_PIECE: usize = 1024;

/// A call.
#[derive(Debug, Clone, PartialEq)]
pub enum Step {
    Measure(Vec<i16>),
    Ask,
}

/// A clip: the calls from a fresh state on.
#[derive(Debug, Clone, Default, PartialEq)]
pub struct Clip(pub Vec<Step>);

impl Listed for Clip {
    /// The clip's lines of the list.
    fn inputs(&self) -> String {
        let mut lines = line('n', &[]);
        for step in &self.0 {
            match step {
                Step::Measure(piece) => lines.push_str(&piece_lines(piece)),
                Step::Ask => lines.push_str(&line('a', &[])),
            }
        }
        lines
    }

    /// The Rust's answers.
    fn answers(&self) -> String {
        let (mut pieces, mut samples) = (Vec::<&[i16]>::new(), 0);
        let mut lines = String::new();
        for step in &self.0 {
            match step {
                Step::Measure(piece) if fits(samples + piece.len()) => {
                    pieces.push(piece);
                    samples += piece.len();
                }
                Step::Measure(_) => lines.push_str("refused 3\n"),
                Step::Ask => lines.push_str(&answer_line(&measure(&pieces))),
            }
        }
        lines
    }
}

/// Whether the store has room for a record of each frame.
fn fits(samples: usize) -> bool {
    samples.div_ceil(SAMPLES_PER_FRAME) <= ROOM
}

/// A piece, fourteen samples a line; the last line measures it.
fn piece_lines(piece: &[i16]) -> String {
    assert!(piece.len() <= LONGEST_PIECE);
    let last = piece.len().saturating_sub(1) / SAMPLES_PER_FRAME * SAMPLES_PER_FRAME;
    let (before, last) = piece.split_at(last);
    let mut lines: String =
        before.chunks(SAMPLES_PER_FRAME).map(|samples| line('b', samples)).collect();
    lines.push_str(&line('m', last));
    lines
}

/// A line of the list.
fn line(letter: char, samples: &[i16]) -> String {
    let mut line = format!("{letter}{:02}", samples.len());
    for place in 0..SAMPLES_PER_FRAME {
        line.push_str(&pattern(samples.get(place).copied().unwrap_or(0)));
    }
    line + "\n"
}

/// The line of an answer.
fn answer_line(measured: &Measured) -> String {
    let mut line = measured.records.len().to_string();
    for record in &measured.records {
        line.push(' ');
        line.extend(record.map(float_pattern));
    }
    line.push(' ');
    line.extend(measured.coefficients.map(pattern));
    line + "\n"
}

/// The pattern of a sample or coefficient.
fn pattern(value: i16) -> String {
    format!("{value:04x}")
}

/// The pattern of a float, one and the same for every NaN.
fn float_pattern(value: f64) -> String {
    let bits = if value.is_nan() { 0x7ff8_0000_0000_0000 } else { value.to_bits() };
    format!("{bits:016x}")
}
