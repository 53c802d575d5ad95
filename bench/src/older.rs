//! Encoding with coefficients larger than measured ones.

use crate::cell;
use crate::parts::{encode_both, encode_times};
use crate::runs::grouped;
use crate::sides::library;
use crate::sounds::Sound;

/// Eight pairs of hand-made size.
const HAND_MADE: [i16; 16] = [
    4_608, -2_304, 5_120, -2_560, 6_144, -3_072, 6_144, -4_096, 8_192, -4_096, 8_192, -6_144,
    12_288, -8_192, 16_000, -8_192,
];

/// Eight pairs with |c0| + |c1| = 61,440, the most that is accepted.
const AT_THE_LIMIT: [i16; 16] = [
    30_720, 30_720, 30_720, -30_720, -30_720, 30_720, -30_720, -30_720, 32_767, -28_673, -32_768,
    28_672, 28_672, -32_768, -28_673, 32_767,
];

/// The table of a clip's length.
pub fn print_table(count: usize, rounds: usize) {
    let rows = Sound::ALL.map(|sound| row(sound, count, rounds));
    println!("### Encoding with large pairs, N = {} (`start`, `feed`, `close`)\n", grouped(count));
    println!(
        "Times the Rust's speed (nanoseconds a sample, Rust : library), medians of {rounds} rounds.\n"
    );
    println!("| sound | measured | of hand-made size | at the limit |");
    println!("|---|---|---|---|");
    for (sound, cells) in Sound::ALL.iter().zip(rows) {
        println!("| {} | {} |", sound.name(), cells.join(" | "));
    }
    println!();
}

/// The cells of a sound: with its own coefficients, and with each bank. Panics where what both sides encode differs.
fn row(sound: Sound, count: usize, rounds: usize) -> [String; 3] {
    eprintln!("{} {count} with large pairs", sound.name());
    let clip = sound.clip(count);
    let (calculator, mut store) = library::process(&clip);
    let measured = library::finish(calculator, &mut store);
    [measured, HAND_MADE, AT_THE_LIMIT].map(|coefficients| {
        encode_both(&clip, &coefficients);
        cell(&encode_times(&clip, &coefficients, rounds), count)
    })
}

#[cfg(test)]
mod tests {
    use super::*;
    use oracle::pairs::{LARGEST_SUM, are_of_measured_size, are_within_limit, sum_of_pair};

    #[test]
    fn banks_are_accepted_and_larger_than_measured_ones() {
        for bank in [HAND_MADE, AT_THE_LIMIT] {
            assert!(are_within_limit(&bank));
            let pairs = bank.as_chunks().0.iter();
            let alike = |pair: &[i16; 2]| std::array::from_fn(|place| pair[place % 2]);
            assert!(pairs.map(alike).all(|bank| !are_of_measured_size(&bank)));
        }
        let mut at_the_limit = AT_THE_LIMIT.as_chunks().0.iter();
        assert!(at_the_limit.all(|pair| sum_of_pair(*pair) == LARGEST_SUM));
    }

    #[test]
    fn both_sides_encode_the_same() {
        for sound in Sound::ALL {
            for count in [1, 13, 1_400] {
                assert!(row(sound, count, 1).iter().all(|cell| cell.starts_with("**")));
            }
        }
    }
}
