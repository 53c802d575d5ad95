//! Writes a list of float operations or the Rust's answers: the fixed list, or random operations.
//! Usage: float_list inputs | answers | zeros
//!        float_list random COUNT SEED inputs | answers

use float_list::{Case, Random, cases, random_case};
use std::env;
use std::io::{self, BufWriter, Write};

fn main() -> io::Result<()> {
    let words: Vec<_> = env::args().skip(1).collect();
    let words: Vec<_> = words.iter().map(String::as_str).collect();
    match words[..] {
        ["zeros"] => zeros()
            .iter()
            .try_for_each(|case| writeln!(io::stdout(), "{case} {}", case.answer_line())),
        [side] => write_all(&mut cases().into_iter(), side),
        ["random", count, seed, side] => {
            let mut random = Random(number(seed)?);
            write_all(&mut (0..number(count)?).map(|_| random_case(&mut random)), side)
        }
        _ => Err(usage()),
    }
}

/// Writes the inputs or the answers of the cases.
fn write_all(cases: &mut impl Iterator<Item = Case>, side: &str) -> io::Result<()> {
    let mut output = BufWriter::new(io::stdout().lock());
    match side {
        "inputs" => cases.try_for_each(|case| writeln!(output, "{case}")),
        "answers" => cases.try_for_each(|case| writeln!(output, "{}", case.answer_line())),
        _ => Err(usage()),
    }
}

/// A number of the command line.
fn number(word: &str) -> io::Result<u64> {
    word.parse().map_err(|_| usage())
}

/// What the command line must be.
fn usage() -> io::Error {
    io::Error::other("usage: float_list zeros | [random COUNT SEED] inputs | answers")
}

/// The cases that are left out.
fn zeros() -> [Case; 4] {
    [Case::Max(0.0, -0.0), Case::Max(-0.0, 0.0), Case::Min(0.0, -0.0), Case::Min(-0.0, 0.0)]
}
