//! Coefficients to test with.

use doilycairn::Coefficients;

/// Coefficients with this pair in place of one of theirs.
pub fn with_pair(coefficients: Coefficients, index: usize, (c0, c1): (i16, i16)) -> Coefficients {
    let mut coefficients = coefficients.0;
    coefficients[2 * index..2 * index + 2].copy_from_slice(&[c0, c1]);
    Coefficients(coefficients)
}

/// Zeros but for one pair.
pub fn one_pair(index: usize, pair: (i16, i16)) -> Coefficients {
    with_pair(Coefficients::default(), index, pair)
}

/// Eight pairs as coefficients.
pub fn of_pairs(pairs: [(i16, i16); 8]) -> Coefficients {
    Coefficients(std::array::from_fn(|place| match place % 2 {
        0 => pairs[place / 2].0,
        _ => pairs[place / 2].1,
    }))
}

/// Every pair of 16 bits with this |c0| + |c1|.
pub fn pairs_of_sum(sum: i32) -> Vec<(i16, i16)> {
    let signs = |(c0, c1): (i32, i32)| [(c0, c1), (c0, -c1), (-c0, c1), (-c0, -c1)];
    let fits = |(c0, c1): (i32, i32)| Some((i16::try_from(c0).ok()?, i16::try_from(c1).ok()?));
    (0..=sum).map(|c0| (c0, sum - c0)).flat_map(signs).filter_map(fits).collect()
}

/// Pairs of an older bank, larger than measured ones.
pub const OLDER: [(i16, i16); 8] = [
    (8_192, -4_096),
    (30_720, -30_720),
    (-32_768, 28_672),
    (32_767, 28_673),
    (-28_672, -32_768),
    (4_097, 0),
    (0, 2_049),
    (-5_000, 3_000),
];

/// Older banks: one of all these pairs, and for each of them one of it alone.
pub fn older_banks() -> Vec<Coefficients> {
    OLDER.map(|pair| of_pairs([pair; 8])).into_iter().chain([of_pairs(OLDER)]).collect()
}
