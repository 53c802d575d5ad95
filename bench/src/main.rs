//! Times the library against the unchanged Rust, alternating in one run: `bench [older | from] [ROUNDS [LARGEST]]`.
//!
//! Both sides work on the same clips, and their results are compared before anything is timed. With `older` only the table of
//! encoding with large pairs is made, with `from` only the last one, of playing from a sample on.

mod older;
mod parts;
mod runs;
mod sides;
mod sounds;
mod timing;

use parts::{Case, Part};
use sounds::Sound;
use timing::Times;

/// Lengths of the clips: 100 frames to the most that the library takes.
const COUNTS: [usize; 5] = [1_400, 14_000, 140_000, 1_400_000, 14_680_064];

/// Longer clips have three rounds at most: each takes seconds.
const LONG: usize = 2_000_000;

/// The length of the clips that are encoded with large pairs.
const OF_OLDER: usize = 140_000;

/// Words of the command line that ask for one table alone.
const OLDER: &str = "older";
const FROM: &str = "from";

/// A number of the command line.
fn argument(place: usize, otherwise: usize) -> usize {
    match std::env::args().skip(1).filter(|word| word != OLDER && word != FROM).nth(place) {
        Some(text) => text.parse().expect("usage: bench [older | from] [ROUNDS [LARGEST]]"),
        None => otherwise,
    }
}

/// The times of every part of a clip.
fn times(sound: Sound, count: usize, rounds: usize) -> Vec<Times> {
    eprintln!("{} {count}", sound.name());
    let rounds = if count > LONG { rounds.min(3) } else { rounds };
    let mut case = Case::new(sound.clip(count));
    Part::ALL.into_iter().map(|part| case.times(part, rounds)).collect()
}

/// A cell: the ratio, and the nanoseconds a sample of both sides.
fn cell(times: &Times, count: usize) -> String {
    let [rust, library] = [times.rust, times.library].map(|time| time / count as f64);
    format!("**{:.2}** ({rust:.1} : {library:.1})", times.ratio)
}

/// The table of a part.
fn print_table(part: usize, counts: &[usize], all: &[Vec<Vec<Times>>]) {
    println!("### {}\n", Part::ALL[part].title());
    let head: Vec<_> = counts.iter().map(|count| format!("N = {count}")).collect();
    println!("| sound | {} |", head.join(" | "));
    println!("|---|{}", "---|".repeat(counts.len()));
    for (sound, of_sound) in Sound::ALL.iter().zip(all) {
        let cells: Vec<_> =
            of_sound.iter().zip(counts).map(|(times, count)| cell(&times[part], *count)).collect();
        println!("| {} | {} |", sound.name(), cells.join(" | "));
    }
    println!();
}

/// The tables of the parts of the job.
fn print_parts(counts: &[usize], rounds: usize) {
    let all: Vec<Vec<Vec<Times>>> = Sound::ALL
        .into_iter()
        .map(|sound| counts.iter().map(|count| times(sound, *count, rounds)).collect())
        .collect();
    println!(
        "Times the Rust's speed (nanoseconds a sample, Rust : library), medians of {rounds} rounds, of 3 at most for the longest clip.\n"
    );
    for part in 0..Part::ALL.len() {
        print_table(part, counts, &all);
    }
}

fn main() {
    let rounds = argument(0, 9);
    let largest = argument(1, 14_680_064);
    let counts: Vec<_> = COUNTS.into_iter().filter(|count| *count <= largest).collect();
    let [older, from] = [OLDER, FROM].map(|name| std::env::args().any(|word| word == name));
    if !older && !from {
        print_parts(&counts, rounds);
    }
    if largest > 0 && (older || !from) {
        older::print_table(OF_OLDER.min(largest), rounds);
    }
    if let Some(longest) = counts.last().filter(|_| from || !older) {
        runs::print_table(*longest, rounds);
    }
}
