//! Pairs of coefficients: their limit, and the size of measured ones.

use crate::Coefficients;

/// The largest |c0| + |c1| of a pair.
pub const LARGEST_SUM: usize = 61_440;

/// The largest magnitude of a measured c0, and of a measured c1.
pub const MEASURED: [i16; 2] = [4096, 2048];

/// |c0| + |c1|.
pub fn sum_of_pair([c0, c1]: [i16; 2]) -> usize {
    usize::from(c0.unsigned_abs()) + usize::from(c1.unsigned_abs())
}

/// Document 02's limit: "|c0| + |c1| ≤ 61,440 for every pair".
pub fn are_within_limit(coefficients: &Coefficients) -> bool {
    coefficients.as_chunks().0.iter().all(|pair| sum_of_pair(*pair) <= LARGEST_SUM)
}

/// Whether each c0 is within ±4,096 and each c1 within ±2,048, as measured ones are.
pub fn are_of_measured_size(coefficients: &Coefficients) -> bool {
    let most = MEASURED.map(i16::unsigned_abs);
    coefficients.iter().enumerate().all(|(place, c)| c.unsigned_abs() <= most[place % 2])
}

/// The coefficients with a pair put at its place, 0 to 7.
pub fn with_pair(mut coefficients: Coefficients, place: usize, pair: [i16; 2]) -> Coefficients {
    coefficients.as_chunks_mut().0[place] = pair;
    coefficients
}

/// Eight times the same pair.
pub fn eight_times(c0: i16, c1: i16) -> Coefficients {
    std::array::from_fn(|place| [c0, c1][place % 2])
}

/// Coefficients at ±4,096 and ±2,048, zero, and a mixture.
pub fn largest_measured() -> [Coefficients; 6] {
    let mixed =
        [4096, -2048, -4096, 2048, 4096, 2048, -4096, -2048, 0, 2048, 4096, 0, 2048, 0, 0, 0];
    let [a, b, c, d] = [(4096, -2048), (4096, 2048), (-4096, 2048), (-4096, -2048)]
        .map(|(c0, c1)| eight_times(c0, c1));
    [[0; 16], a, b, c, d, mixed]
}
