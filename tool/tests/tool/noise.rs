//! Random bytes to every command: an answer or a failure, never a panic.

use crate::support::{Folder, Random, chunk, format, image, looped, raw, riff, sampler, sound};

const LINES: [&str; 20] = [
    "encode --force in out",
    "encode --force --raw --rate 8000 in out",
    "encode --force --ignore-length --verify in out",
    "encode --force --coefficients in clip out",
    "encode --force --wav-loop in out",
    "encode --force --loop 5,17 --raw --rate 8000 in out",
    "decode --force in out",
    "decode --force --loop 3 --lead-in in out",
    "decode --force --block 1 in out",
    "info --blocks --svg out.svg in",
    "info --json --blocks --raw --against in a",
    "check in a in",
    "same in a",
    "same a in",
    "same --sound --json in a",
    "join --force a in out",
    "join --force --reencode in a out",
    "join --force --drop-loop in a out",
    "trim --force --from 28 --to 65 in out",
    "trim --force --from 1 --raw --recording clip in out",
];

fn tried(folder: &Folder, bytes: &[u8]) {
    folder.write("in", bytes);
    for line in LINES {
        let run = folder.run(line);
        assert!((0..=5).contains(&run.status), "{line}: {run:?}");
        assert!(!run.err.contains("panicked"), "{line}: {run:?}");
    }
}

fn folder() -> Folder {
    let folder = Folder::new();
    folder.write("a", image(&sound(100, 1), 8000, 16));
    folder.write("clip", crate::support::wav(&sound(100, 1), 8000));
    folder
}

#[test]
fn noise() {
    let (folder, mut random) = (folder(), Random(1));
    for _ in 0..40 {
        let len = random.below(300) as usize;
        let bytes: Vec<u8> = (0..len).map(|_| random.next() as u8).collect();
        tried(&folder, &bytes);
    }
}

#[test]
fn noise_in_a_wav_file() {
    let (folder, mut random) = (folder(), Random(2));
    let list = chunk(b"LIST", &[1; 9]);
    let good = riff(&[
        list.clone(),
        chunk(b"fmt ", &format(1, 1, 8000, 16)),
        chunk(b"data", &raw(&sound(60, 2))),
        list,
        sampler(&[(0, 5, 17), (1, 6, 7)]),
    ]);
    for _ in 0..40 {
        let mut bytes = good.clone();
        for _ in 0..=random.below(4) {
            // In the heads before the samples, or in the smpl chunk.
            let at = random.below(120) as usize;
            let at = if at < 60 { at } else { bytes.len() - (at - 59) };
            bytes[at] = random.next() as u8;
        }
        bytes.truncate(random.below(2 * bytes.len() as u64) as usize);
        tried(&folder, &bytes);
    }
}

#[test]
fn noise_in_an_image() {
    let (folder, mut random) = (folder(), Random(3));
    let good = image(&sound(100, 3), 8000, 16);
    for _ in 0..40 {
        let mut bytes = good.clone();
        for _ in 0..=random.below(6) {
            let at = random.below(bytes.len() as u64) as usize;
            bytes[at] = random.next() as u8;
        }
        tried(&folder, &bytes);
    }
}

#[test]
fn noise_in_an_image_with_a_loop() {
    let (folder, mut random) = (folder(), Random(4));
    let good = looped(&sound(100, 3), 16, (30, 90));
    for _ in 0..40 {
        let mut bytes = good.clone();
        for _ in 0..=random.below(3) {
            // In the loop's entry, its history most of all, or anywhere.
            let at = match random.below(3) {
                0 => random.below(bytes.len() as u64),
                1 => 56 + 16 * 4 + 10 + random.below(4),
                _ => 56 + 16 * 4 + random.below(16),
            };
            bytes[at as usize] = random.next() as u8;
        }
        tried(&folder, &bytes);
    }
}
