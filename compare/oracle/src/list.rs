//! The program of a list: writes its inputs or the Rust's answers, of the fixed list or of random cases.

use crate::random::Random;
use std::env;
use std::io::{self, BufWriter, Write};

/// A case of a list.
pub trait Listed {
    /// Its lines of the inputs, each with its end.
    fn inputs(&self) -> String;

    /// Its lines of the answers, each with its end.
    fn answers(&self) -> String;
}

/// Writes what the command line asks for.
pub fn write_list<T: Listed>(
    fixed: fn() -> Vec<T>,
    random_case: fn(&mut Random) -> T,
) -> io::Result<()> {
    let words: Vec<_> = env::args().skip(1).collect();
    let words: Vec<_> = words.iter().map(String::as_str).collect();
    match words[..] {
        [side] => write_all(&mut fixed().into_iter(), side),
        ["random", count, seed, side] => {
            let mut random = Random::new(number(seed)?);
            let mut cases = (0..number(count)?).map(|_| random_case(&mut random));
            write_all(&mut cases, side)
        }
        _ => Err(usage()),
    }
}

/// Writes the inputs or the answers of the cases.
fn write_all<T: Listed>(cases: &mut impl Iterator<Item = T>, side: &str) -> io::Result<()> {
    let mut output = BufWriter::new(io::stdout().lock());
    match side {
        "inputs" => cases.try_for_each(|case| output.write_all(case.inputs().as_bytes())),
        "answers" => cases.try_for_each(|case| output.write_all(case.answers().as_bytes())),
        _ => Err(usage()),
    }
}

/// A number of the command line.
fn number(word: &str) -> io::Result<u64> {
    word.parse().map_err(|_| usage())
}

/// What the command line must be.
fn usage() -> io::Error {
    io::Error::other("usage: [random COUNT SEED] inputs | answers")
}
