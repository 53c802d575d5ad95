//! Two images sound the same when they play the same samples.

use crate::clips::{clips, encode, encode_from, noise, start_of, tone, with_loop};
use doilycairn::{Coefficients, History, Image, Start, sounds_same};

#[test]
fn whatever_the_block_size() {
    for clip in clips() {
        let images = [8, 16, 100, 65_536].map(|block_size| encode(&clip, block_size));
        for first in &images {
            for second in &images {
                assert_eq!(sounds_same(first, second), Ok(true));
            }
        }
    }
}

#[test]
fn as_what_is_played() {
    let clips = [tone(300), tone(301), noise(300, 9000, 1), noise(300, 9000, 2), vec![0; 300]];
    let images = clips.map(|clip| encode(&clip, 64));
    for first in &images {
        for second in &images {
            let (a, b) = (Image::open(first).unwrap(), Image::open(second).unwrap());
            assert_eq!(a.sounds_same(&b), Ok(a.play() == b.play()));
        }
    }
}

#[test]
fn the_last_sample_counts_and_nothing_but_samples() {
    let clip = tone(300);
    let start = Start { coefficients: Coefficients([0; 16]), ..start_of(&clip, 64) };
    let image = encode_from(&start, &clip);
    // With zero coefficients no history is heard.
    for other in [
        Start { rate: 1, ..start },
        Start { gain: 0xffff, ..start },
        Start { history: History::default(), ..start },
        with_loop(start, (3, 20)),
    ] {
        assert_eq!(sounds_same(&image, &encode_from(&other, &clip)), Ok(true));
    }
    let mut last = clip.clone();
    last[299] += 4000;
    assert_eq!(sounds_same(&image, &encode_from(&start, &last)), Ok(false));
}

#[test]
fn the_count_of_samples_counts() {
    let images = [14, 27, 28, 56].map(|count| encode(&vec![0; count], 16));
    for (i, first) in images.iter().enumerate() {
        for (j, second) in images.iter().enumerate() {
            assert_eq!(sounds_same(first, second), Ok(i == j));
        }
    }
}
