//! Random operations: eight of nine are `mul_add`.

use crate::Case::{self, Abs, Max, Min, MulAdd, Round};
use crate::random::Random;

/// A random case.
pub fn random_case(random: &mut Random) -> Case {
    match random.bits() % 9 {
        0 => other(random),
        1 => MulAdd(any(random), any(random), any(random)),
        2 => MulAdd(special(random), special(random), special(random)),
        3 => sum(random, -1, 1),
        4 => cancelling(random),
        5 => edge(random),
        6 => sum(random, -540, -480),
        7 => sum(random, 480, 520),
        _ => sum(random, -40, 40),
    }
}

/// A float with few bits set, so that ties are frequent, or with any bits; its exponent from `low` to `high`.
fn ordinary(random: &mut Random, low: i32, high: i32) -> f64 {
    if random.bits().is_multiple_of(2) { random.sparse(low, high) } else { random.float(low, high) }
}

/// Any bits at all: every exponent, subnormal numbers, infinities and NaNs among them.
fn any(random: &mut Random) -> f64 {
    f64::from_bits(random.bits())
}

/// A number at an end of the format, or an ordinary one.
fn special(random: &mut Random) -> f64 {
    let ends = [
        0,
        1,
        2,
        (1 << 52) - 1,
        1 << 52,
        (1 << 52) + 1,
        1023 << 52,
        (2046 << 52) | 1,
        (2047 << 52) - 1,
        2047 << 52,
    ];
    let bits = match random.bits() % 14 {
        place @ 0..10 => ends[place as usize],
        10 => (2047 << 52) | random.bits() >> 12 | 1,
        11 => random.bits() >> 12 >> random.between(0, 51),
        _ => return random.float(-1022, 1023),
    };
    f64::from_bits(bits | random.bits() & 1 << 63)
}

/// A product and an addend with exponents of these.
fn sum(random: &mut Random, low: i32, high: i32) -> Case {
    let (a, b) = (ordinary(random, low, high), ordinary(random, low, high));
    MulAdd(a, b, ordinary(random, (2 * low - 60).max(-1022), (2 * high + 60).min(1023)))
}

/// A product that the addend takes away, but for a few units in its last place.
fn cancelling(random: &mut Random) -> Case {
    let (a, b) = (ordinary(random, -300, 300), ordinary(random, -300, 300));
    let product = (-(a * b)).to_bits();
    MulAdd(a, b, f64::from_bits(product.wrapping_add_signed(i64::from(random.between(-3, 3)))))
}

/// Exponents of product and addend that are far from each other by about one or two words.
fn edge(random: &mut Random) -> Case {
    let (ea, eb) = (random.between(-200, 200), random.between(-200, 200));
    let distance = [
        random.between(-130, -100),
        random.between(-70, -40),
        random.between(-5, 70),
        random.between(50, 130),
    ];
    let ec = ea + eb + distance[random.between(0, 3) as usize];
    MulAdd(ordinary(random, ea, ea), ordinary(random, eb, eb), ordinary(random, ec, ec))
}

/// One of the other operations. `max` and `min` of zeros of different sign are left out.
fn other(random: &mut Random) -> Case {
    let a =
        if random.bits().is_multiple_of(2) { special(random) } else { ordinary(random, -3, 54) };
    let b = if random.bits().is_multiple_of(4) { a } else { special(random) };
    match random.bits() % 4 {
        0 => Abs(a),
        1 if a != 0.0 || b != 0.0 => Max(a, b),
        2 if a != 0.0 || b != 0.0 => Min(a, b),
        _ => Round(a),
    }
}
