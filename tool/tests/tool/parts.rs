//! `decode --from` and `--count`: a part is what the whole clip has there.

use crate::parse::Value;
use crate::support::{Folder, Random, image, image_with, raw, sound, wav};
use doilycairn::{Coefficients, History, Image};

fn played(bytes: &[u8]) -> Vec<i16> {
    Image::open(bytes).unwrap().play().unwrap()
}

/// The blocks that a part overlaps, counted one by one; `each` is a whole block's samples.
fn overlapped(total: usize, each: usize, first: usize, count: usize) -> usize {
    let overlaps = |k: &usize| k * each < first + count && first < (k + 1) * each;
    (0..total.div_ceil(each)).filter(overlaps).filter(|_| count > 0).count()
}

/// Samples and blocks touched, as `--json` tells them; the part itself is in `out`.
fn told(folder: &Folder, options: &str) -> (usize, usize) {
    let json = Value::of_line(&folder.done(&format!("decode --json --raw {options} in out")).out);
    assert_eq!(json.get("block"), &Value::Null);
    (json.number("samples") as usize, json.number("blocks_touched") as usize)
}

/// The numbers in what is said of a part: its samples, the first one, the blocks touched.
fn said(words: &str) -> Vec<usize> {
    words.split(' ').filter_map(|word| word.replace(',', "").parse().ok()).take(3).collect()
}

#[test]
fn worked_numbers() {
    let folder = Folder::new();
    let few = [
        ((0, 14), (14, 1)),
        ((0, 15), (15, 2)),
        ((13, 1), (1, 1)),
        ((13, 2), (2, 2)),
        ((14, 200), (1, 1)),
        ((14, 0), (0, 0)),
    ];
    let many = [
        ((400, 200), (200, 2)),
        ((447, 1), (1, 1)),
        ((448, 448), (448, 1)),
        ((447, 450), (450, 3)),
        ((999, 5), (1, 1)),
    ];
    for (len, size, cases) in [(15, 8, &few[..]), (1000, 256, &many[..])] {
        let bytes = image(&sound(len, 1), 32_000, size);
        folder.write("in", &bytes);
        for ((first, room), answer) in cases {
            assert_eq!(told(&folder, &format!("--from {first} --count {room}")), *answer);
            assert_eq!(folder.read("out"), raw(&played(&bytes)[*first..first + answer.0]));
        }
    }
}

#[test]
fn worked_samples() {
    let folder = Folder::new();
    let mut coefficients = Coefficients::default();
    coefficients.0[0] = 2048;
    let clip: Vec<i16> = (0..20).map(|i| 1000 + 6 * i).collect();
    let history = History { newest: 1000, older: 990 };
    let bytes = image_with(&clip, 32_000, 8, coefficients, history);
    let bodies = b"\x00\x06\x66\x66\x66\x66\x66\x66\x07\0\0\0";
    assert!(bytes.ends_with(bodies));
    folder.write("in", &bytes);
    let wanted = [1030, 1036, 1042, 1048, 1054, 1060, 1066, 1072, 1078, 1078, 1078, 1078];
    assert_eq!(told(&folder, "--from 5 --count 12"), (12, 2));
    assert_eq!(folder.read("out"), raw(&wanted));
}

/// Every first and count of these, in the image `in`.
fn compared(folder: &Folder, bytes: &[u8], firsts: &[usize], counts: &[usize]) {
    let (whole, head) = (played(bytes), *Image::open(bytes).unwrap().head());
    folder.write("in", bytes);
    for &first in firsts.iter().filter(|first| **first < whole.len()) {
        for &count in counts {
            let part = &whole[first..whole.len().min(first + count)];
            let touched = overlapped(whole.len(), head.block as usize / 8 * 14, first, part.len());
            let run = folder.done(&format!("decode --raw --from {first} --count {count} in -"));
            assert_eq!(said(&run.err), [part.len(), first, touched], "{count}: {}", run.err);
            assert!(run.bytes == raw(part), "{} {first} {count}", whole.len());
        }
    }
}

#[test]
fn every_part_of_small_clips() {
    let folder = Folder::new();
    for (len, size) in [(1, 8), (2, 65_536), (14, 8), (15, 8), (17, 16)] {
        let bytes = image(&sound(len, 2), 32_000, size);
        let firsts: Vec<usize> = (0..len).collect();
        let counts: Vec<usize> = (0..=len + 1).collect();
        compared(&folder, &bytes, &firsts, &counts);
    }
}

#[test]
fn parts_of_clips_of_many_blocks() {
    let folder = Folder::new();
    let mut random = Random(3);
    for (len, size) in [(43, 8), (1000, 80), (5000, 1024), (40_000, 8192), (40_000, 65_536)] {
        let bytes = image(&sound(len, 4), 32_000, size);
        let each = size as usize / 8 * 14;
        let edges = [0, 1, 13, 14, 15, each - 1, each, each + 1, 3 * each - 1, len - 1];
        let firsts: Vec<usize> =
            edges.into_iter().chain((0..4).map(|_| random.below(len as u64) as usize)).collect();
        let counts = [0, 1, 14, each - 1, each, each + 1, 2 * each + 5, len];
        compared(&folder, &bytes, &firsts, &counts);
    }
}

/// A block plays from its own entry, also where the block before leaves another history.
#[test]
fn histories_that_no_encoder_wrote() {
    let folder = Folder::new();
    let mut bytes = image(&sound(500, 5), 32_000, 16);
    for k in 0..18 {
        bytes[56 + 16 * k + 10..][..4].copy_from_slice(&[0x12 + k as u8, 3, 0xe0, k as u8]);
    }
    let edges: Vec<usize> = (0..18).flat_map(|k| [28 * k, 28 * k + 1, 28 * k + 27]).collect();
    compared(&folder, &bytes, &edges, &[1, 30, 500]);
}

#[test]
fn parts_in_turn_are_the_clip() {
    let folder = Folder::new();
    folder.write("in", image(&sound(3001, 6), 32_000, 80));
    let whole = folder.done("decode --raw in -").bytes;
    for count in [1000, 140, 139, 141] {
        let (mut joined, mut first) = (vec![], 0);
        while first < 3001 {
            let run = folder.done(&format!("decode --raw --from {first} --count {count} in -"));
            first += run.bytes.len() / 2;
            joined.extend(run.bytes);
        }
        assert!(joined == whole, "{count}");
    }
}

#[test]
fn either_option_alone() {
    let folder = Folder::new();
    let bytes = image(&sound(1000, 7), 44_100, 256);
    let whole = played(&bytes);
    folder.write("in", &bytes);
    folder.done("decode --from 447 in a");
    assert_eq!(folder.read("a"), wav(&whole[447..], 44_100));
    folder.done("decode --count 449 in b");
    assert_eq!(folder.read("b"), wav(&whole[..449], 44_100));
    folder.done("decode --from 0 in c");
    assert_eq!(folder.read("c"), wav(&whole, 44_100));
    folder.done("decode --from=0x1bf --count=0x1C2 in d");
    assert_eq!(folder.read("d"), wav(&whole[447..897], 44_100));
    folder.done("--from 999 --count 4294967295 decode in e");
    assert_eq!(folder.read("e"), wav(&whole[999..], 44_100));
}

#[test]
fn no_samples() {
    let folder = Folder::new();
    folder.write("in", image(&sound(15, 8), 8000, 8));
    let run = folder.done("decode --from 14 --count 0 in out.wav");
    assert_eq!(folder.read("out.wav"), wav(&[], 8000));
    let words = "0 samples from sample 14, 0 blocks touched, of in (0.0 ms at 8,000 Hz)";
    assert_eq!(run.err, format!("out.wav: {words}\n"));
    folder.done("decode --count 0 --raw in out.raw");
    assert_eq!(folder.read("out.raw"), b"");
    assert_eq!(folder.done("decode --raw --count 0 in -").bytes, b"");
    folder.run("decode --from 15 --count 0 in none").expect(4, "(refusal 19); it has 15 samples\n");
    assert!(!folder.has("none"));
}

#[test]
fn what_is_said() {
    let folder = Folder::new();
    folder.write("in.dspc", image(&sound(1000, 9), 32_000, 256));
    folder.write("one", image(&[5], 1, 8));
    let cases = [
        (
            "--from 400 --count 200 in.dspc",
            "200 samples from sample 400, 2 blocks touched, of in.dspc (6.2 ms at 32,000 Hz)",
        ),
        (
            "--from 999 --count 5 in.dspc",
            "1 sample from sample 999, 1 block touched, of in.dspc (0.0 ms at 32,000 Hz)",
        ),
        (
            "--count 9999 in.dspc",
            "1,000 samples from sample 0, 3 blocks touched, of in.dspc (31.2 ms at 32,000 Hz)",
        ),
        ("--from 0 one", "1 sample from sample 0, 1 block touched, of one (1.000 s at 1 Hz)"),
    ];
    for (line, words) in cases {
        assert_eq!(folder.done(&format!("decode --raw {line} out")).err, format!("out: {words}\n"));
        let run = folder.done(&format!("decode --raw -q {line} out"));
        assert_eq!((&run.out[..], &run.err[..]), ("", ""));
    }
    let whole = folder.done("decode --raw in.dspc out").err;
    assert_eq!(whole, "out: 1,000 samples at 32,000 Hz (31.2 ms) of in.dspc\n");
}

#[test]
fn json_has_the_first_sample_and_the_blocks() {
    let folder = Folder::new();
    folder.write("in", image(&sound(1000, 9), 32_000, 256));
    for (options, numbers) in [
        ("--from 400 --count 200", [200.0, 32_000.0, 400.0, 2.0]),
        ("--from 900", [100.0, 32_000.0, 900.0, 1.0]),
        ("--count 0", [0.0, 32_000.0, 0.0, 0.0]),
        ("--count 1001", [1000.0, 32_000.0, 0.0, 3.0]),
    ] {
        let run = folder.done(&format!("decode --json --raw {options} in out"));
        let json = Value::of_line(&run.out);
        let names = ["samples", "rate", "from", "blocks_touched"];
        assert_eq!((names.map(|name| json.number(name)), &run.err[..]), (numbers, ""));
        assert_eq!((json.text("output"), json.get("block")), ("out", &Value::Null));
    }
    for options in ["", "--block 0"] {
        let json =
            Value::of_line(&folder.done(&format!("decode --json --raw {options} in out")).out);
        assert!(!json.has("from") && !json.has("blocks_touched"));
    }
    assert_eq!(folder.run("decode --json --from 1 in -").status, 2);
}

#[test]
fn standard_input_and_output() {
    let folder = Folder::new();
    let bytes = image(&sound(40_000, 10), 32_000, 1024);
    let part = &played(&bytes)[12_345..32_345];
    let run = folder.feed("decode --from 12345 --count 20000 - -", &bytes);
    assert_eq!((run.status, run.bytes == wav(part, 32_000)), (0, true));
    let words = "standard output: 20,000 samples from sample 12,345, 13 blocks touched, of standard input (625.0 ms at 32,000 Hz)\n";
    assert_eq!(run.err, words);
    let run = folder.feed("decode -q --raw --from 12345 --count 20000 - -", &bytes);
    assert_eq!((run.status, run.bytes == raw(part), &run.err[..]), (0, true, ""));
    let run = folder.feed("decode --from 40000 - -", &bytes);
    let words = "doilycairn: standard input: the first sample is not in the clip (refusal 19); it has 40,000 samples\n";
    assert_eq!((run.status, &run.bytes[..], &run.err[..]), (4, &b""[..], words));
}

/// More than is played at once.
#[test]
fn long_parts_are_played_in_pieces() {
    let folder = Folder::new();
    let clip: Vec<i16> = (0..2_300_000).map(|i| (i % 251 * 97 - 12_000) as i16).collect();
    let mut coefficients = Coefficients::default();
    coefficients.0[0] = 2048;
    for size in [8, 1000, 65_536] {
        let bytes = image_with(&clip, 48_000, size, coefficients, History::default());
        let (whole, each) = (played(&bytes), size as usize / 8 * 14);
        folder.write("in", &bytes);
        for (first, count) in [(0, 2_300_000), (1, 2_299_999), (1_000_003, 1_200_000)] {
            let answer = told(&folder, &format!("--from {first} --count {count}"));
            assert_eq!(answer, (count, overlapped(clip.len(), each, first, count)));
            assert!(folder.read("out") == raw(&whole[first..first + count]), "{size} {first}");
        }
    }
}
