//! What looks wrong in a header is what the library refuses, and mending touches no more than it may.

use super::fields::wrong;
use super::lenient::mend;
use super::{begins, is_named};
use doilycairn::{Refusal, dsp_image_size};
use std::ffi::OsStr;

/// A file of 20 samples of silence: bodies at 96 and 104. The second frame has another header.
fn file(looped: bool) -> Vec<u8> {
    let mut file = vec![0; 108];
    file[..12].copy_from_slice(&[0, 0, 0, 20, 0, 0, 0, 24, 0, 0, 0x7d, 0]);
    file[27] = 2;
    file[104] = 7;
    if looped {
        file[13] = 1;
        (file[19], file[23], file[69]) = (18, 23, 7);
    }
    file
}

/// Numbers that follow from a seed.
struct Random(u64);

impl Random {
    fn below(&mut self, count: usize) -> usize {
        self.0 = self.0.wrapping_mul(6_364_136_223_846_793_005).wrapping_add(1);
        (self.0 >> 33) as usize % count
    }
}

/// Files of which up to three bytes of the header are altered, after the sample count and but for the rate.
fn altered() -> impl Iterator<Item = Vec<u8>> {
    let mut random = Random(1);
    (0..20_000).map(move |turn| {
        let mut file = file(turn % 2 == 0);
        for _ in 0..1 + random.below(3) {
            let place = 4 + random.below(92);
            file[place] = [0, 1, 2, 7, 18, 23, 24, 255][random.below(8)];
        }
        file[8..12].copy_from_slice(&[0, 0, 0, 1]);
        file
    })
}

#[test]
fn what_looks_wrong_is_what_is_refused() {
    let mut refused = 0;
    for file in altered() {
        let found = wrong(&file);
        let is_refused = dsp_image_size(&file, 8) == Err(Refusal::BadField);
        assert_eq!(!found.is_empty(), is_refused, "{found:?}: {file:?}");
        refused += usize::from(is_refused);
    }
    assert!((5_000..19_500).contains(&refused), "{refused}");
}

/// Whether --lenient may mend a byte of this file.
fn may_mend(file: &[u8], place: usize) -> bool {
    match place {
        16..24 | 68..74 => file[12..14] == [0, 0],
        24..28 => file[24..28] == [0; 4],
        74..96 => file[74] == 0 && file[75] < 2,
        _ => false,
    }
}

#[test]
fn mending_touches_what_it_may_and_tells_all() {
    let mut taken = 0;
    for file in altered() {
        let mut mended = file.clone();
        let told = mend(&mut mended);
        let touched = (0..file.len()).filter(|place| file[*place] != mended[*place]);
        assert!(touched.clone().all(|place| may_mend(&file, place)), "{file:?}");
        assert_eq!(told.is_empty(), touched.count() == 0);
        assert!(mend(&mut mended).is_empty());
        // What is left wrong is nothing that it may mend.
        let left = wrong(&mended);
        assert!(left.iter().all(|left| !may_mend(&file, left.byte)), "{left:?}: {file:?}");
        taken += usize::from(left.is_empty() && !told.is_empty());
    }
    assert!(taken > 500, "{taken}");
}

#[test]
fn words_of_what_was_mended() {
    let mut file = file(false);
    file[16..20].copy_from_slice(&[0, 0, 4, 0]);
    file[27] = 0;
    file[69] = 0x1b;
    file[70..74].copy_from_slice(&[0xff, 0xfe, 0, 3]);
    file[75..78].copy_from_slice(&[1, 0, 9]);
    let told: Vec<String> = mend(&mut file).iter().map(ToString::to_string).collect();
    assert_eq!(
        told,
        [
            "byte 16: the loop start address was 1,024 and is 0 now",
            "byte 24: the start address was 0 and is 2 now",
            "byte 68: the loop header was 00 1b and is 00 00 now",
            "byte 70: the newest sample before the loop was -2 and is 0 now",
            "byte 72: the older sample before the loop was 3 and is 0 now",
            "byte 74: the channel count was 1 and is 0 now",
            "byte 76: the rest of the header was 00 09 00 00 00 00 00 00 00 00 00 00 00 00 00 00 00 00 00 00 and is zeros now",
        ]
    );
}

#[test]
fn a_short_file_is_not_mended() {
    for len in 0..96 {
        assert!(mend(&mut vec![1; len]).is_empty());
    }
}

#[test]
fn known_by_name_and_contents() {
    for (name, is_dsp) in [("a.dsp", true), ("a.DSP", true), ("a.dspc", false), ("dsp", false)] {
        assert_eq!(is_named(OsStr::new(name)), is_dsp);
    }
    assert!(begins(&file(false)) && begins(&file(false)[..8]));
    for other in [&file(false)[..7], b"DSPC\0\0\0\x14", b"RIFF\0\0\0\x14", &[0; 96], &[]] {
        assert!(!begins(other));
    }
}
