//! Where the Rust panics. In the profile `checked` it also stops at overflows; in `release` they
//! wrap without notice, which is shown here too.

use oracle::{FrameContext, caught, coefficients_of_records, decode, encode, encode_frame_bytes};

/// Whether overflows are checked.
const CHECKED: bool = cfg!(debug_assertions);

/// Plays a block of zero coefficients.
fn play(bytes: &[u8], len: usize) -> Result<usize, String> {
    caught(|| decode(bytes, len, &[0; 16], FrameContext::new()).0.len())
}

#[test]
fn length_0_panics_in_every_profile() {
    assert!(play(&[], 0).is_err());
    assert!(play(&[0; 8], 0).is_err());
}

#[test]
fn length_1_or_2_plays_nothing_even_without_bytes() {
    assert_eq!((play(&[], 1), play(&[], 2)), (Ok(0), Ok(0)));
}

#[test]
fn length_above_twice_the_bytes_panics() {
    for bytes in 1..20 {
        for len in 1..=2 * bytes {
            assert_eq!(play(&vec![0; bytes], len), Ok(oracle::address_to_sample(len)));
        }
        for len in 2 * bytes + 1..60 {
            assert!(play(&vec![0; bytes], len).is_err(), "{bytes} bytes, length {len}");
        }
    }
    assert!(play(&[], 3).is_err());
}

#[test]
fn block_size_below_8_panics() {
    let run = |size| caught(|| encode(&[&[1]], 8000, size, &[0; 16], 0, [0, 0]).is_ok());
    assert_eq!(run(7), Err("block size is too small".into()));
    assert_eq!(run(8), Ok(true));
}

/// Plays one nibble 0 from a pair and a history.
fn play_pair(pair: [i16; 2], history: [i16; 2]) -> Result<i16, String> {
    let mut coefficients = [0; 16];
    coefficients[..2].copy_from_slice(&pair);
    let context = FrameContext { predictor_and_scale: 0, last_samples: history };
    caught(|| decode(&[0x00, 0x00], 3, &coefficients, context).0[0])
}

/// The smallest input that overflows in the decoder: one nibble, and −32,768 four times.
#[test]
fn playing_overflows_when_pair_and_history_are_all_least() {
    let played = play_pair([i16::MIN; 2], [i16::MIN; 2]);
    if CHECKED {
        assert_eq!(played, Err("attempt to add with overflow".into()));
    } else {
        assert_eq!(played, Ok(i16::MIN), "the true answer is 32,767");
    }
}

/// No other extremes overflow: the next largest sum is 2^31 − 32,768.
#[test]
fn playing_overflows_for_no_other_extremes() {
    let values = [-32768, -32767, -1, 0, 1, 32766, 32767];
    for (c0, c1) in values.iter().flat_map(|c0| values.map(|c1| (*c0, c1))) {
        for (s0, s1) in values.iter().flat_map(|s0| values.map(|s1| (*s0, s1))) {
            if [c0, c1, s0, s1] != [i16::MIN; 4] {
                let sum = i64::from(c0) * i64::from(s0) + i64::from(c1) * i64::from(s1);
                let sample = ((sum + 1024) >> 11).clamp(-32768, 32767);
                assert_eq!(play_pair([c0, c1], [s0, s1]), Ok(sample as i16));
            }
        }
    }
}

/// Encodes one sample with eight equal pairs.
fn encode_pair(pair: [i16; 2], history: [i16; 2], sample: i16) -> Result<Vec<u8>, String> {
    let coefficients = std::array::from_fn(|place| pair[place % 2]);
    caught(|| encode_frame_bytes(history, &[sample], &coefficients).0)
}

/// From |c0| + |c1| = 63,361 on the search may never end: at p = 12 the quantised D can be 256,
/// an overflow of 249, which sets p back to 11 each time. Nothing overflows 32 bits here.
#[test]
fn the_search_may_never_end_from_a_sum_of_63361() {
    let run = |sum: i32| encode_pair([32_767, (sum - 32_767) as i16], [i16::MIN; 2], i16::MAX);
    assert_eq!(run(63_360), Ok(vec![0x0c, 0x77]));
    assert_eq!(run(63_361), Err("too many calls of clamp_i16".into()));
    assert_eq!(run(63_488), Err("too many calls of clamp_i16".into()));
}

/// From |c0| + |c1| = 63,489 on D may leave 32 bits. In release it wraps to 2^31 - 32,768 here, and
/// the search never ends.
#[test]
fn encoding_overflows_from_a_sum_of_63489() {
    let run = |sum: i32| encode_pair([-32_768, (32_768 - sum) as i16], [i16::MIN; 2], i16::MIN);
    assert_eq!(run(63_488), Ok(vec![0x0c, 0x87]));
    let message =
        if CHECKED { "attempt to subtract with overflow" } else { "too many calls of clamp_i16" };
    assert_eq!(run(63_489), Err(message.into()));
}

/// A record of NaNs makes the first coefficient the least one; measuring gives no such record.
#[test]
fn records_of_nan() {
    let mut expected = [0; 16];
    expected[0] = i16::MIN;
    assert_eq!(coefficients_of_records(&[[f64::NAN; 2]]), expected);
    expected[2..4].copy_from_slice(&[-1024, -512]);
    assert_eq!(coefficients_of_records(&[[f64::NAN; 2], [0.5, 0.25]]), expected);
}
