//! The cases of the list.

use crate::Case::{self, Abs, Max, Min, MulAdd, Round};
use crate::random::Random;
use std::collections::HashSet;

/// The distance from 1 to the next float.
const ULP: f64 = f64::EPSILON;

/// The least positive float, 2^-1074.
const LEAST: f64 = f64::from_bits(1);

/// The largest subnormal float, 2^-1022 - 2^-1074.
const LARGEST_SUBNORMAL: f64 = f64::from_bits(0x000f_ffff_ffff_ffff);

/// The smallest normal float, 2^-1022.
const SMALLEST_NORMAL: f64 = f64::MIN_POSITIVE;

/// NaNs: quiet, quiet with sign and payload, signalling, signalling with sign and payload.
const NANS: [u64; 4] =
    [0x7ff8_0000_0000_0000, 0xfff8_1234_5678_9abc, 0x7ff0_0000_0000_0001, 0xfff7_ffff_0000_0001];

/// All cases, in order, each once.
pub fn cases() -> Vec<Case> {
    let mut seen = HashSet::new();
    let mut cases = all().concat();
    cases.retain(|case| seen.insert(case.to_string()));
    cases
}

/// All cases, kind by kind.
fn all() -> [Vec<Case>; 14] {
    [
        special_sums(),
        ties(),
        far_ties(),
        product_ties(),
        below_powers(),
        cancellations(),
        subnormal_sums(),
        overflows(),
        far_apart(),
        random_sums(),
        absolutes(),
        choices(Max),
        choices(Min),
        roundings(),
    ]
}

/// 2^`exponent`, a normal or subnormal float.
fn power(exponent: i32) -> f64 {
    if exponent < -1022 {
        f64::from_bits(1 << (exponent + 1074))
    } else {
        f64::from_bits(((1023 + exponent) as u64) << 52)
    }
}

/// A case of `mul_add` with all its signs turned.
fn opposite(case: Case) -> Case {
    match case {
        MulAdd(a, b, c) => MulAdd(-a, b, -c),
        other => other,
    }
}

/// The cases given, and the same with all signs turned.
fn both_signs(cases: Vec<Case>) -> Vec<Case> {
    let turned: Vec<_> = cases.iter().copied().map(opposite).collect();
    [cases, turned].concat()
}

/// Zeros, ones, infinities and NaNs in all three places.
fn special_sums() -> Vec<Case> {
    let values = [0.0, -0.0, 1.0, -1.0, f64::INFINITY, -f64::INFINITY];
    let mut cases = vec![];
    for a in values {
        for b in values {
            cases.extend(values.map(|c| MulAdd(a, b, c)));
        }
    }
    for nan in NANS.map(f64::from_bits) {
        cases.extend([MulAdd(nan, 2.0, 3.0), MulAdd(2.0, nan, 3.0), MulAdd(2.0, 3.0, nan)]);
        cases.extend([MulAdd(0.0, f64::INFINITY, nan), MulAdd(nan, nan, nan)]);
    }
    cases
}

/// Half an ulp added to or taken from a float: exactly, a little less, a little more.
fn ties() -> Vec<Case> {
    let mut cases = vec![];
    for base in [1.0, 1.0 + ULP, 1.5, 1.5 + ULP, 2.0 - ULP, 2.0 - 2.0 * ULP] {
        for step in [1.0, 1.0 + ULP, 1.0 - ULP / 2.0, -1.0, -1.0 - ULP, -1.0 + ULP / 2.0] {
            cases.push(MulAdd(base, 1.0, power(-53) * step));
            cases.push(MulAdd(power(-53), step, base));
            cases.push(MulAdd(power(-453) * step, power(400), base));
        }
    }
    both_signs(cases)
}

/// Ties that a remainder far below decides: (1 ± 2^-52)^2 and (1 + 2^-52)(1 - 2^-52), with half an ulp.
fn far_ties() -> Vec<Case> {
    let (above, below) = (1.0 + ULP, 1.0 - ULP);
    let mut cases = vec![];
    for half in [power(-53), -power(-53), power(-54), -power(-54), 3.0 * power(-54)] {
        cases.extend([MulAdd(above, above, half), MulAdd(above, below, half)]);
        cases
            .extend([MulAdd(below, below, half), MulAdd(1.0 + power(-27), 1.0 + power(-27), half)]);
        cases.push(MulAdd(1.0 + power(-27), 1.0 - power(-27), half));
        for near in [half.next_up(), half.next_down()] {
            cases.push(MulAdd(1.0 + power(-27), 1.0 + power(-27), near));
        }
    }
    both_signs(cases)
}

/// Products that are ties by themselves, to even below and above, and an addend far below them.
fn product_ties() -> Vec<Case> {
    let mut cases = vec![];
    for (a, b) in [(power(-27), power(-26)), (power(-26), power(-26) + power(-27))] {
        let (a, b) = (1.0 + a, 1.0 + b);
        cases.push(MulAdd(a, b, 0.0));
        for exponent in [-105, -107, -118, -130, -162, -500, -1022, -1074] {
            cases.extend([MulAdd(a, b, power(exponent)), MulAdd(a, b, -power(exponent))]);
        }
        let (large, small) = (a * power(500), b * power(510));
        cases.extend([MulAdd(large, small, 1.0 + ULP), MulAdd(large, small, -1.0 - ULP)]);
    }
    both_signs(cases)
}

/// Sums just below a power of two, where the ulp is half as large.
fn below_powers() -> Vec<Case> {
    let mut cases = vec![];
    for exponent in [-54, -55, -56, -106, -1074] {
        cases.push(MulAdd(-1.0, power(exponent), 1.0));
        cases.push(MulAdd(-1.0 - ULP, power(exponent.max(-1022)), 1.0));
        cases.push(MulAdd(-3.0, power(exponent), 1.0));
        cases.push(MulAdd(power(600), power(-600), -power(exponent)));
    }
    both_signs(cases)
}

/// Products that the addend takes away: wholly, up to the part lost in rounding, or but for one ulp.
fn cancellations() -> Vec<Case> {
    let mut random = Random(3);
    let mut cases =
        vec![MulAdd(1.0 + power(-26), 1.0 + power(-26), -(1.0 + power(-25) + power(-52)))];
    for exponent in [0, 100, -100, -430, -500, -511] {
        for _ in 0..4 {
            let (a, b) = (random.float(exponent, exponent), random.float(exponent, exponent));
            let product = a * b;
            cases.extend(
                [product, product.next_up(), product.next_down()].map(|c| MulAdd(a, b, -c)),
            );
            cases.push(MulAdd(a, 4.0, -4.0 * a));
        }
    }
    cases
}

/// Sums among the subnormals and at the smallest normal, ties included.
fn subnormal_sums() -> Vec<Case> {
    let (small, tiny) = (power(-537), power(-600));
    let mut cases = vec![];
    for c in [0.0, LEAST, -LEAST, 2.0 * LEAST, LARGEST_SUBNORMAL, SMALLEST_NORMAL] {
        cases.push(MulAdd(small, small, c));
        for factor in [0.5, 0.5 - power(-54), 0.5 + ULP, 1.5, 1.5 - ULP, 1.5 + ULP, 0.25, 2.5] {
            cases.push(MulAdd(small, small * factor, c));
            cases.push(MulAdd(-small, small * factor, c));
        }
        cases.extend([MulAdd(tiny, tiny, c), MulAdd(-tiny, tiny, c)]);
    }
    cases.push(MulAdd(LARGEST_SUBNORMAL, 1.0 + ULP, 0.0));
    cases.push(MulAdd(SMALLEST_NORMAL, 1.0 - ULP / 2.0, 0.0));
    cases.push(MulAdd(SMALLEST_NORMAL, 0.5, LARGEST_SUBNORMAL));
    cases.push(MulAdd(LEAST, LEAST, -LEAST));
    cases.push(MulAdd(LEAST, f64::MAX, -1.0));
    both_signs(cases)
}

/// Sums at the largest float: that overflow by rounding, that just do not, and products above it.
fn overflows() -> Vec<Case> {
    let half = power(970);
    let mut cases = vec![];
    for c in [half, half * (1.0 - ULP / 2.0), half * (1.0 + ULP), 2.0 * half, -half, 0.0] {
        cases.push(MulAdd(f64::MAX, 1.0, c));
        cases.push(MulAdd(power(1023), 2.0, -c));
        cases.push(MulAdd(power(512), power(512), -2.0 * c));
    }
    cases.push(MulAdd(f64::MAX, 2.0, -f64::MAX));
    cases.push(MulAdd(f64::MAX, 1.0 + ULP, -f64::MAX));
    cases.push(MulAdd(f64::MAX, f64::MAX, -f64::MAX));
    cases.push(MulAdd(f64::MAX, f64::MAX, -f64::INFINITY));
    cases.push(MulAdd(power(600), power(424), -power(1023)));
    both_signs(cases)
}

/// Products far above or below the addend.
fn far_apart() -> Vec<Case> {
    let mut cases = vec![];
    for (a, b, c) in [
        (power(500), power(500), power(-500)),
        (power(500), power(500), -LEAST),
        (1.0 + ULP, 1.0 - ULP, LEAST),
        (1.0 + ULP, 1.0 - ULP, -LEAST),
        (power(-500), power(-500), 1.0),
        (power(-500), -power(-500), 1.0),
        (LEAST, LEAST, f64::MAX),
        (LEAST, -LEAST, f64::MAX),
        (LEAST, LEAST, SMALLEST_NORMAL),
        (LEAST, -LEAST, SMALLEST_NORMAL),
        (power(60), power(60), 1.0),
        (power(60) + power(8), power(60), 1.0),
        (power(53) + 2.0, power(53) - 1.0, 0.5),
    ] {
        cases.push(MulAdd(a, b, c));
    }
    both_signs(cases)
}

/// Random sums, with exponents near enough for the places to overlap.
fn random_sums() -> Vec<Case> {
    let mut random = Random(1);
    let mut cases = vec![];
    for number in 0..360 {
        let reach = [3, 60, 115][number % 3];
        let (middle, shift) = (random.between(-200, 200), random.between(-reach, reach));
        let place = 2 * middle + shift;
        cases.push(match number / 3 % 3 {
            0 => MulAdd(
                random.float(middle, middle),
                random.float(middle, middle),
                random.float(place, place),
            ),
            1 => MulAdd(
                random.sparse(middle, middle),
                random.sparse(middle, middle),
                random.sparse(place, place),
            ),
            _ => MulAdd(
                random.sparse(middle, middle),
                random.float(middle, middle),
                random.sparse(place, place),
            ),
        });
    }
    for _ in 0..60 {
        cases.push(MulAdd(
            random.float(-540, -480),
            random.float(-540, -500),
            random.sparse(-1022, -1010),
        ));
    }
    cases
}

/// Values that matter to the operations on one or two floats.
fn values() -> Vec<f64> {
    let mut values = vec![
        0.0,
        LEAST,
        LARGEST_SUBNORMAL,
        SMALLEST_NORMAL,
        0.49999999999999994,
        0.5,
        1.0,
        1.0 + ULP,
        1.5,
        2.5,
        power(52) - 0.5,
        power(52),
        power(53),
        f64::MAX,
        f64::INFINITY,
    ];
    values.extend(values.clone().iter().map(|value| -value));
    values.extend(NANS.map(f64::from_bits));
    values
}

/// Absolute values.
fn absolutes() -> Vec<Case> {
    let mut random = Random(4);
    let mut cases: Vec<_> = values().into_iter().map(Abs).collect();
    cases.extend((0..20).map(|_| Abs(random.float(-1022, 1023))));
    cases
}

/// Pairs for `max` or `min`, but for zeros of different sign.
fn choices(operation: fn(f64, f64) -> Case) -> Vec<Case> {
    let mut random = Random(5);
    let values = values();
    let mut cases = vec![];
    for (place, a) in values.iter().enumerate() {
        for step in [0, 1, 7, 15, 26] {
            let b = values[(place + step) % values.len()];
            if *a != 0.0 || b != 0.0 || a.to_bits() == b.to_bits() {
                cases.push(operation(*a, b));
            }
        }
    }
    for _ in 0..30 {
        let a = random.float(-3, 3);
        cases.extend([operation(a, random.float(-3, 3)), operation(a, a.next_up())]);
    }
    cases
}

/// Values to round: halves, their neighbours, and where floats become whole.
fn roundings() -> Vec<Case> {
    let mut random = Random(6);
    let mut points = values();
    for whole in [0.0, 1.0, 2.0, 3.0, 32_766.0, 32_767.0, power(31), power(51), power(51) + 1.0] {
        let half = whole + 0.5;
        points.extend([
            half,
            half.next_up(),
            half.next_down(),
            -half,
            -half.next_up(),
            -half.next_down(),
        ]);
    }
    points.extend([power(52) + 1.0, power(52) - 1.5, power(53) - 1.0, 0.1, -0.9, 4_096.499]);
    points.extend((0..40).map(|_| random.float(-3, 54)));
    points.into_iter().map(Round).collect()
}
