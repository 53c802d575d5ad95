//! The fixed lists of the Rust's answers in ../crates/*_list, replayed through this crate.

mod blocks;
mod clips;
mod coefficients;
mod dsp;
mod frames;
mod images;

use std::fs::read_to_string;
use std::path::Path;

/// The lines of a list, and of its answers; there are some of each.
fn list(name: &str) -> (Vec<String>, Vec<String>) {
    let folder = Path::new(env!("CARGO_MANIFEST_DIR")).join("../crates").join(name);
    let lines = |file| -> Vec<String> {
        let text = read_to_string(folder.join(file)).unwrap();
        text.lines().map(str::to_owned).collect()
    };
    let (list, answers) = (lines("stdin"), lines("stdout"));
    assert!(!list.is_empty() && !answers.is_empty());
    (list, answers)
}

/// The bytes that hexadecimal digits say.
fn bytes(digits: &str) -> Vec<u8> {
    let byte = |i| u8::from_str_radix(&digits[i..i + 2], 16).unwrap();
    (0..digits.len()).step_by(2).map(byte).collect()
}

/// The number in the first four bytes.
fn number(bytes: &[u8]) -> u32 {
    u32::from_be_bytes(bytes[..4].try_into().unwrap())
}

/// Samples or coefficients, two bytes each.
fn words<const N: usize>(bytes: &[u8]) -> [i16; N] {
    std::array::from_fn(|i| i16::from_be_bytes([bytes[2 * i], bytes[2 * i + 1]]))
}

/// Bytes as the digits of a number, modulo a prime.
fn digest(bytes: &[u8]) -> u64 {
    bytes.iter().fold(0, |sum, byte| (sum * 1_000_003 + u64::from(*byte) + 1) % 1_099_511_627_689)
}

/// Two digits a byte.
fn digits(bytes: &[u8]) -> String {
    bytes.iter().map(|byte| format!("{byte:02x}")).collect()
}

/// Four digits a number.
fn digits_of(numbers: &[i16]) -> String {
    numbers.iter().map(|number| format!("{number:04x}")).collect()
}
