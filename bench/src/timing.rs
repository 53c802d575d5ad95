//! Times of both sides, alternating.

use std::hint::black_box;
use std::time::{Duration, Instant};

/// Each round takes at least this long on a side, so that the clock's steps do not count.
const ROUND: Duration = Duration::from_millis(20);

/// The nanoseconds of one run on each side, and how often the library is as fast as the Rust.
#[derive(Clone, Copy, Debug)]
pub struct Times {
    pub rust: f64,
    pub library: f64,
    pub ratio: f64,
}

/// A piece of work: gives the time that it took, without what is done before and after it.
pub type Work<'a> = &'a mut dyn FnMut() -> Duration;

/// The time of `run` on what is given.
pub fn timed<I, O>(input: I, run: impl FnOnce(I) -> O) -> Duration {
    let input = black_box(input);
    let start = Instant::now();
    let output = black_box(run(input));
    let time = start.elapsed();
    drop(output);
    time
}

/// Medians over `rounds` rounds, in which the sides take turns at being the first.
pub fn alternate(rounds: usize, rust: Work, library: Work) -> Times {
    let repeats = repeats(rust().max(library()));
    let mut all = vec![];
    for round in 0..rounds {
        all.push(if round % 2 == 0 {
            let first = mean(repeats, rust);
            (first, mean(repeats, library))
        } else {
            let first = mean(repeats, library);
            (mean(repeats, rust), first)
        });
    }
    Times {
        rust: median(all.iter().map(|times| times.0)),
        library: median(all.iter().map(|times| times.1)),
        ratio: median(all.iter().map(|times| times.0 / times.1)),
    }
}

/// The median over `rounds` rounds of one side, in nanoseconds.
pub fn alone(rounds: usize, work: Work) -> f64 {
    let repeats = repeats(work());
    median((0..rounds).map(|_| mean(repeats, work)))
}

/// How many runs make a round.
fn repeats(once: Duration) -> usize {
    let runs = ROUND.as_secs_f64() / once.as_secs_f64().max(1e-9);
    (runs.ceil() as usize).clamp(1, 100_000)
}

/// The mean of so many runs, in nanoseconds.
fn mean(repeats: usize, work: Work) -> f64 {
    let sum: Duration = (0..repeats).map(|_| work()).sum();
    sum.as_secs_f64() * 1e9 / repeats as f64
}

/// The one in the middle, or the mean of the two.
fn median(values: impl Iterator<Item = f64>) -> f64 {
    let mut sorted: Vec<_> = values.collect();
    sorted.sort_by(f64::total_cmp);
    let half = sorted.len() / 2;
    if sorted.len() % 2 == 1 { sorted[half] } else { (sorted[half - 1] + sorted[half]) / 2.0 }
}

#[cfg(test)]
mod tests {
    use super::*;

    #[test]
    fn medians() {
        assert_eq!(median([3.0, 1.0, 2.0].into_iter()), 2.0);
        assert_eq!(median([4.0, 1.0, 2.0, 3.0].into_iter()), 2.5);
    }

    #[test]
    fn a_slower_side_is_seen() {
        let [mut slow, mut fast] = [3, 1].map(|ms| move || Duration::from_millis(ms));
        let times = alternate(4, &mut slow, &mut fast);
        assert!((times.ratio - 3.0).abs() < 1e-9, "{times:?}");
        assert!((times.rust - 3e6).abs() < 1.0);
    }
}
