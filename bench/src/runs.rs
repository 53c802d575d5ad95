//! Playing a few samples from places of a clip, beside testing its table alone and playing it all.

use crate::sides::{library, rust};
use crate::sounds::Sound;
use crate::timing::{Times, alone, alternate, timed};
use doilycairn::Image;
use oracle::Block;

/// The samples that are played.
const ROOM: usize = 200;

/// Bytes of a block: the fewest, those of the other tables, the most.
const BLOCKS: [u32; 3] = [8, 8_192, 65_536];

/// First samples: the start, the middle, a run around the middle, the last run.
fn places(total: usize) -> [usize; 4] {
    [0, total / 2, total / 2 - ROOM / 2, total - ROOM]
}

/// The times of an image, in nanoseconds.
struct Row {
    block: u32,
    blocks: usize,
    /// `open`, which tests the table; the Rust has no table.
    open: f64,
    /// `play_from` at each place.
    runs: [Times; 4],
    /// `play_all`.
    all: Times,
}

/// The table of a clip's length.
pub fn print_table(total: usize, rounds: usize) {
    let rows = rows(total, rounds);
    println!("### Playing {ROOM} samples from one on, N = {} (`play_from`)\n", grouped(total));
    println!("Microseconds, Rust : library, medians of {rounds} rounds.\n");
    let firsts = places(total).map(|first| format!("from {}", grouped(first))).join(" | ");
    println!("| blocks | table alone (`open`) | {firsts} | all (`play_all`) |");
    println!("|---|{}", "---|".repeat(6));
    for Row { block, blocks, open, runs, all } in rows {
        let cells = [&runs[..], &[all]].concat().iter().map(cell).collect::<Vec<_>>().join(" | ");
        let (blocks, block) = (grouped(blocks), grouped(block as usize));
        println!("| {blocks} of {block} bytes | {} | {cells} |", microseconds(open));
    }
    println!();
}

/// A cell: the microseconds of both sides.
fn cell(times: &Times) -> String {
    format!("{} : {}", microseconds(times.rust), microseconds(times.library))
}

/// Nanoseconds as microseconds: three digits, or all that stand before the point.
fn microseconds(nanoseconds: f64) -> String {
    match nanoseconds / 1000.0 {
        few @ ..10.0 => format!("{few:.2}"),
        some @ ..100.0 => format!("{some:.1}"),
        many => grouped(many.round() as usize),
    }
}

/// A number with its thousands set apart.
pub fn grouped(number: usize) -> String {
    match number {
        0..1000 => number.to_string(),
        _ => format!("{},{:03}", grouped(number / 1000), number % 1000),
    }
}

/// A row for each block size, of a clip of music.
fn rows(total: usize, rounds: usize) -> Vec<Row> {
    let clip = Sound::Music.clip(total);
    let (calculator, mut store) = library::process(&clip);
    let coefficients = library::finish(calculator, &mut store);
    let row = |block| {
        eprintln!("{total} in blocks of {block}");
        let bytes = library::encode(&clip, &coefficients, block);
        let blocks = rust::encode(&clip, &coefficients, block);
        row(block, &bytes, &blocks, rounds)
    };
    BLOCKS.map(row).into()
}

/// Times an image against the Rust's blocks. Panics where what they play differs.
fn row(block: u32, bytes: &[u8], blocks: &[Block], rounds: usize) -> Row {
    let image = Image::open(bytes).unwrap();
    let total = image.head().total as usize;
    let all = rust::decode(blocks).concat();
    assert!(image.play().unwrap() == all, "samples");
    for first in places(total) {
        let right = &all[first..first + ROOM];
        assert_eq!(library::play_from(&image, first, ROOM), right, "from {first}");
        assert_eq!(rust::play_from(blocks, first, ROOM), right, "the Rust from {first}");
    }
    Row {
        block,
        blocks: blocks.len(),
        open: alone(rounds, &mut || timed(bytes, |bytes| Image::open(bytes).unwrap())),
        runs: places(total).map(|first| run(&image, blocks, first, rounds)),
        all: alternate(rounds, &mut || timed(blocks, rust::decode), &mut || {
            timed(&image, |image| image.play().unwrap())
        }),
    }
}

/// Times a run.
fn run(image: &Image, blocks: &[Block], first: usize, rounds: usize) -> Times {
    alternate(
        rounds,
        &mut || timed(first, |first| rust::play_from(blocks, first, ROOM)),
        &mut || timed(first, |first| library::play_from(image, first, ROOM)),
    )
}

#[cfg(test)]
mod tests {
    use super::*;

    #[test]
    fn thousands() {
        let numbers = [0, 999, 1_000, 65_536, 14_680_064].map(grouped);
        assert_eq!(numbers, ["0", "999", "1,000", "65,536", "14,680,064"]);
        let times = [640.4, 12_340.0, 123_400.0, 41_234_567.0].map(microseconds);
        assert_eq!(times, ["0.64", "12.3", "123", "41,235"]);
    }

    #[test]
    fn both_sides_play_the_same_and_take_time() {
        for total in [400, 1_400, 14_337] {
            for row in rows(total, 1) {
                assert_eq!(row.blocks, total.div_ceil(row.block as usize / 8 * 14));
                assert!(row.open > 0.0 && row.all.rust > 0.0 && row.all.library > 0.0);
                assert!(row.runs.iter().all(|times| times.rust > 0.0 && times.library > 0.0));
            }
        }
    }
}
