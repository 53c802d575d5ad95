//! A fixed list of float operations, and the Rust's answers; and random ones.
//!
//! A line of the list is a letter (m `mul_add`, a `abs`, x `max`, n `min`, r `round`) and three
//! operands, each 16 hexadecimal digits of the bits; those that the operation does not take are
//! zero, so that all lines have 53 bytes. A line of the answers is 16 digits, for every NaN
//! 7ff8000000000000.
//!
//! Left out: `max` and `min` of zeros of different sign, whose answer Rust leaves open. The four
//! cases are max(+0, -0), max(-0, +0), min(+0, -0) and min(-0, +0); `float_list zeros` writes what
//! the machine gives. Built by rustc 1.95 for x86-64 each gave its first operand.

mod any;
mod cases;
mod random;

pub use any::random_case;
pub use cases::cases;
pub use random::Random;

use std::fmt::{self, Display, Formatter};
use std::hint::black_box;

/// An operation and its operands.
#[derive(Debug, Copy, Clone)]
pub enum Case {
    MulAdd(f64, f64, f64),
    Abs(f64),
    Max(f64, f64),
    Min(f64, f64),
    Round(f64),
}

impl Case {
    /// The Rust's answer, worked out while running.
    pub fn answer(self) -> f64 {
        match black_box(self) {
            Self::MulAdd(a, b, c) => a.mul_add(b, c),
            Self::Abs(a) => a.abs(),
            Self::Max(a, b) => a.max(b),
            Self::Min(a, b) => a.min(b),
            Self::Round(a) => a.round(),
        }
    }

    /// The answer's bits as 16 hexadecimal digits, the same ones for every NaN.
    pub fn answer_line(self) -> String {
        let answer = self.answer();
        hexadecimal(if answer.is_nan() { f64::from_bits(0x7ff8_0000_0000_0000) } else { answer })
    }

    /// The operation's letter and three operands; those that it does not take are zero.
    fn parts(self) -> (char, [f64; 3]) {
        match self {
            Self::MulAdd(a, b, c) => ('m', [a, b, c]),
            Self::Abs(a) => ('a', [a, 0.0, 0.0]),
            Self::Max(a, b) => ('x', [a, b, 0.0]),
            Self::Min(a, b) => ('n', [a, b, 0.0]),
            Self::Round(a) => ('r', [a, 0.0, 0.0]),
        }
    }
}

impl Display for Case {
    fn fmt(&self, output: &mut Formatter) -> fmt::Result {
        let (letter, operands) = self.parts();
        write!(output, "{letter}")?;
        operands.iter().try_for_each(|operand| write!(output, " {}", hexadecimal(*operand)))
    }
}

/// A float's bits as 16 hexadecimal digits.
fn hexadecimal(value: f64) -> String {
    format!("{:016x}", value.to_bits())
}
