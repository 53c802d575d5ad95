//! Bytes and passes of a frame against the scope paper's rules, written here in whole numbers.

use oracle::pairs::eight_times;
use oracle::random::Random;
use oracle::{encode_frame, quantised};

/// What one pair gives: its exponent, passes, nibbles and sum of squares.
struct Candidate {
    power: u32,
    passes: u32,
    nibbles: [i64; 14],
    squares: i64,
}

/// The exponent of the first pass.
fn first_power(samples: &[i64; 16], c0: i64, c1: i64) -> u32 {
    let distance = |s: &[i64]| (s[2] - (c0 * s[1] + c1 * s[0]) / 2048).clamp(-32768, 32767);
    let mut largest: i64 = 0;
    for d in samples.windows(3).map(distance) {
        if d.abs() > largest.abs() {
            largest = d;
        }
    }
    let mut halvings = 0;
    while !(-8..=7).contains(&largest) {
        largest /= 2;
        halvings += 1;
    }
    ((halvings - 2).max(-1) + 1) as u32
}

/// One pass: nibbles, sum of squares, largest overflow.
fn pass(samples: &[i64; 16], c0: i64, c1: i64, power: u32) -> ([i64; 14], i64, i64) {
    let (mut nibbles, mut squares, mut overflow) = ([0; 14], 0, 0);
    let (mut s1, mut s0, scale) = (samples[0], samples[1], 2048 << power);
    for (nibble, sample) in nibbles.iter_mut().zip(&samples[2..]) {
        let predicted = c0 * s0 + c1 * s1;
        let value = quantised(2048 * sample - predicted, scale);
        *nibble = value.clamp(-8, 7);
        overflow = overflow.max((value - *nibble).abs());
        (s1, s0) = (s0, ((predicted + *nibble * scale + 1024) >> 11).clamp(-32768, 32767));
        squares += (sample - s0) * (sample - s0);
    }
    (nibbles, squares, overflow)
}

/// The search of one pair.
fn candidate(samples: &[i64; 16], c0: i64, c1: i64) -> Candidate {
    let mut power = first_power(samples, c0, c1);
    for passes in 1.. {
        let (nibbles, squares, overflow) = pass(samples, c0, c1, power);
        let mut rest = overflow + 8;
        while rest > 256 {
            power = (power + 1).min(11);
            rest /= 2;
        }
        if power == 12 || overflow <= 1 {
            return Candidate { power, passes, nibbles, squares };
        }
        power += 1;
    }
    unreachable!()
}

/// A frame's bytes and passes by the rules.
fn by_the_rules(history: [i16; 2], frame: &[i16], coefficients: &[i16; 16]) -> (Vec<u8>, u32) {
    let mut samples = [0; 16];
    samples[0] = history[1].into();
    samples[1] = history[0].into();
    for (place, sample) in samples[2..].iter_mut().zip(frame) {
        *place = (*sample).into();
    }
    let pairs = coefficients.as_chunks::<2>().0.iter();
    let all: Vec<_> = pairs.map(|c| candidate(&samples, c[0].into(), c[1].into())).collect();
    let (index, best) = all.iter().enumerate().min_by_key(|(_, one)| one.squares).unwrap();
    let mut bytes = vec![(index as u8) << 4 | best.power as u8];
    bytes.extend(best.nibbles.chunks(2).map(|two| (two[0] as u8 & 15) << 4 | two[1] as u8 & 15));
    bytes.truncate(1 + frame.len().div_ceil(2));
    (bytes, all.iter().map(|one| one.passes).sum())
}

/// Compares one frame and gives its passes.
fn compare(history: [i16; 2], frame: &[i16], coefficients: &[i16; 16]) -> u32 {
    let (bytes, passes, _) = encode_frame(history, frame, coefficients);
    let expected = by_the_rules(history, frame, coefficients);
    assert_eq!((bytes, passes), expected, "{history:?} {frame:?} {coefficients:?}");
    passes
}

/// Compares many frames and gives the most passes.
fn compare_many(seed: u64, choose: impl Fn(&mut Random) -> [i16; 16]) -> u32 {
    let mut random = Random::new(seed);
    let mut most = 0;
    for _ in 0..15_000 {
        let coefficients = choose(&mut random);
        let history = [random.sample(), random.sample()];
        let (len, place) = (1 + random.below(14), 2 * random.below(8));
        let pair = [coefficients[place], coefficients[place + 1]];
        let followed = random.follow(len, pair, [3, -2]);
        most = most.max(compare([3, -2], &followed, &coefficients));
        most = most.max(compare(history, &random.follow(len, pair, history), &coefficients));
        most = most.max(compare(history, &random.clip(len), &coefficients));
    }
    most
}

/// Eight pairs, or one pair eight times.
fn repeat_some(random: &mut Random, coefficients: [i16; 16]) -> [i16; 16] {
    let step = if random.below(2) == 0 { 2 } else { 16 };
    std::array::from_fn(|place| coefficients[place % step])
}

#[test]
fn frames_follow_the_rules() {
    let most = compare_many(21, |random| {
        let coefficients = random.coefficients();
        repeat_some(random, coefficients)
    });
    println!("most passes of a frame: {most}");
    assert!((24..=104).contains(&most), "{most}");
}

#[test]
fn frames_follow_the_rules_with_older_banks() {
    let most = compare_many(22, |random| {
        let coefficients = random.older_bank();
        repeat_some(random, coefficients)
    });
    println!("most passes of a frame: {most}");
    assert!((24..=104).contains(&most), "{most}");
}

/// Frames with large pairs whose search takes four passes for each of them, which random ones seldom do.
#[test]
fn long_searches_follow_the_rules() {
    for (frame, pair) in [
        (&[-8, 53, -531][..], [-25_108, -30_652]),
        (&[17], [-10_553, -32_768]),
        (&[8], [-15_804, -32_768]),
    ] {
        assert_eq!(compare([3, -2], frame, &eight_times(pair[0], pair[1])), 32);
    }
}
