//! The number that is clamped to a nibble: the Rust's expression, and the scope paper's rule in whole numbers.

/// The Rust's expression, as vgaudio/encode.rs has it.
pub fn unclamped(power: i32, distance: i32) -> i32 {
    let scale = (1 << power) * 2048;
    if distance > 0 {
        ((distance as f32 / scale as f32) as f64 + 0.4999999) as i32
    } else {
        ((distance as f32 / scale as f32) as f64 - 0.4999999) as i32
    }
}

/// A magnitude rounded to 24 significant bits, ties to even.
fn round24(value: i64) -> i64 {
    let unit = 1 << (64 - value.leading_zeros()).saturating_sub(24);
    let (whole, rest) = (value / unit, value % unit);
    let up = 2 * rest > unit || (2 * rest == unit && whole % 2 == 1);
    (whole + up as i64) * unit
}

/// D rounded to 24 bits, divided by `scale`, to nearest, halves towards zero.
pub fn quantised(distance: i64, scale: i64) -> i64 {
    distance.signum() * ((round24(distance.abs()) + scale / 2 - 1) / scale)
}
