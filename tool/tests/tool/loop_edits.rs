//! What becomes of a loop: `trim`, `join`, `same`, `encode --after`.

use crate::parse::Value;
use crate::support::*;
use doilycairn::{Coefficients, History, Image, Loop};

fn played(bytes: &[u8]) -> Vec<i16> {
    Image::open(bytes).unwrap().play().unwrap()
}

fn points(bytes: &[u8]) -> Option<(u32, u32)> {
    Image::open(bytes).unwrap().looped().map(|Loop { start, end }| (start, end))
}

/// Where every frame stays, starting with the history and the loop there and feeding what is left gives the same.
#[test]
fn a_trimmed_loop_is_what_encoding_with_it_gives() {
    let folder = Folder::new();
    let clip = sound(2800, 1);
    let coefficients = Coefficients::measure(&clip).unwrap();
    for (start, end) in [(1022, 1960), (1000, 1001), (1039, 2000)] {
        let bytes = looped(&clip, 80, (start, end));
        let samples = played(&bytes);
        folder.write("in", &bytes);
        for (from, to) in [(0, 2800), (0, 2001), (14, 2800), (980, 2000), (994, 2100)] {
            let run = folder.done(&format!("trim --from {from} --to {to} in out"));
            let shifted = (start - from as u32, end - from as u32);
            assert!(run.err.contains(", as they were; loop from sample "), "{}", run.err);
            let history = match from {
                0 => History::default(),
                _ => History { newest: samples[from - 1], older: samples[from - 2] },
            };
            let wanted = looped_with(&clip[from..to], 80, coefficients, history, shifted);
            // A last frame that was cut is not encoded anew: but for it they are equal.
            let out = folder.read("out");
            let table = 56 + 16 * (usize::from(out[55]) + 1);
            assert_eq!(out[..table], wanted[..table], "{from} {to}");
            assert_eq!(played(&out), samples[from..to]);
            assert_eq!(points(&out), Some(shifted));
            let turn = Image::open(&out).unwrap().play_loop(1).unwrap();
            assert_eq!(turn, samples[start as usize..end as usize]);
            folder.done("check --strict out");
        }
    }
}

#[test]
fn a_loop_that_the_part_has_not() {
    let folder = Folder::new();
    let bytes = looped(&sound(2800, 2), 80, (700, 1400));
    folder.write("in", &bytes);
    let note =
        "note: in: its loop, from sample 700 up to 1,400, is not within the part and is left out\n";
    for (options, kept) in [
        ("--from 700", true),
        ("--to 1400", true),
        ("--from 700 --to 1400", true),
        ("--from 0.021875s --to 1400", true),
        ("--from 714", false),
        ("--to 1399", false),
        ("--from 701 --to 1400", false),
        ("--from 1400", false),
        ("--to 700", false),
    ] {
        let run = folder.done(&format!("trim {options} in out"));
        assert_eq!(run.err.contains(note), !kept, "{options}: {}", run.err);
        assert_eq!(points(&folder.read("out")).is_some(), kept, "{options}");
        let json = Value::of_line(&folder.done(&format!("trim --json {options} in out")).out);
        assert_eq!(json.get("loop") == &Value::Null, !kept);
        let run = folder.done(&format!("trim --drop-loop {options} in out"));
        assert!(!run.err.contains("loop") && points(&folder.read("out")).is_none(), "{}", run.err);
    }
    // Without its loop the image is that of the clip without one.
    folder.done("trim --drop-loop in out");
    assert_eq!(folder.read("out"), image(&sound(2800, 2), 32_000, 80));
    folder.done("trim in out");
    assert_eq!(folder.read("out"), bytes);
    folder.done("trim --drop-loop out plain");
    folder.done("trim --drop-loop plain none");
    assert_eq!(folder.read("plain"), folder.read("none"));
}

#[test]
fn a_loop_moves_where_all_is_encoded_again() {
    let folder = Folder::new();
    let clip = sound(1000, 3);
    let coefficients = Coefficients::measure(&clip).unwrap();
    let bytes = looped(&clip, 80, (300, 900));
    let samples = played(&bytes);
    folder.write("in", &bytes);
    folder.write("in.wav", wav(&clip, 32_000));
    for from in [1, 100, 300] {
        let older = if from == 1 { 0 } else { samples[from - 2] };
        let history = History { newest: samples[from - 1], older };
        let shifted = (300 - from as u32, 900 - from as u32);
        for (option, clip) in [("", &samples), ("--recording in.wav", &clip)] {
            let run = folder.done(&format!("trim --from {from} {option} in out"));
            assert!(
                run.err.contains("encoded again from") && run.err.contains("; loop from sample ")
            );
            let wanted = looped_with(&clip[from..], 80, coefficients, history, shifted);
            assert_eq!(folder.read("out"), wanted, "{from} {option}");
        }
    }
}

/// A turn that is not the clip's samples would end elsewhere where blocks do.
#[test]
fn a_loop_that_clicks_stays_at_its_blocks_or_all_is_encoded_again() {
    let folder = Folder::new();
    let mut bytes = looped(&sound(1400, 4), 80, (430, 900));
    let entry = 56 + 16 * usize::from(bytes[55]);
    bytes[entry + 10] ^= 0x10;
    folder.write("in", &bytes);
    let turn = Image::open(&bytes).unwrap().play_loop(1).unwrap();
    let words = "note: the loop's stored history is not what is played before its start, and blocks would begin elsewhere, \
        so every frame is encoded again\n";
    for (options, kept, clicks) in [
        ("--from 140", true, true),
        ("--to 1000", true, true),
        ("--from 14", false, false),
        ("--from 14 --drop-loop", true, false),
        ("--from 14 --to 500", true, false),
    ] {
        let run = folder.done(&format!("trim {options} in out"));
        assert_eq!(run.err.contains("as they were"), kept, "{options}: {}", run.err);
        assert_eq!(run.err.contains(words), !kept);
        assert_eq!(folder.run("check --strict out").status, i32::from(clicks), "{options}");
        if clicks {
            let out = folder.read("out");
            assert_eq!(Image::open(&out).unwrap().play_loop(1).unwrap(), turn);
        }
    }
}

#[test]
fn join_leaves_loops_out_only_where_that_is_said() {
    let folder = Folder::new();
    let clip = sound(1400, 5);
    let coefficients = Coefficients::measure(&clip).unwrap();
    let plain = image_with(&clip, 32_000, 80, coefficients, History::default());
    folder.write("plain", &plain);
    folder.write("loop", looped(&clip, 80, (140, 999)));
    folder.write("out", "old");
    let whole = "it has a loop, from sample 140 up to 999, and a joined image has none: --drop-loop leaves it out\n";
    for line in
        ["loop plain", "plain loop", "loop loop", "--reencode plain loop", "--reencode loop plain"]
    {
        let run = folder.run(&format!("join {line} out"));
        assert_eq!((run.status, run.err), (3, format!("doilycairn: loop: {whole}")), "{line}");
    }
    assert_eq!(folder.read("out"), b"old");
    folder.done("join plain plain wanted");
    folder.done("join --reencode plain plain again");
    for line in ["loop plain", "plain loop", "loop loop"] {
        folder.done(&format!("join --drop-loop {line} out"));
        assert_eq!(folder.read("out"), folder.read("wanted"), "{line}");
        let json = Value::of_line(
            &folder.done(&format!("join --json --drop-loop --reencode {line} out")).out,
        );
        assert_eq!((json.get("loop"), folder.read("out")), (&Value::Null, folder.read("again")));
    }
    let json = Value::of_line(&folder.done("join --json --drop-loop plain plain out").out);
    assert_eq!((json.get("loop"), folder.read("out")), (&Value::Null, folder.read("wanted")));
}

#[test]
fn a_clip_that_follows_one_with_a_loop() {
    let folder = Folder::new();
    folder.write("a", looped(&sound(1400, 6), 80, (140, 999)));
    folder.write("b.wav", wav(&sound(500, 7), 32_000));
    let run = folder.done("encode --after a b.wav b");
    let words =
        "note: a: it has a loop, and `join` will not put a clip after it without --drop-loop\n";
    assert!(run.err.contains(words), "{}", run.err);
    folder.run("join a b out").expect(3, "a: it has a loop");
    folder.done("join --drop-loop a b out");
    folder.done("check --strict out");
    let [a, b] = ["a", "b"].map(|name| played(&folder.read(name)));
    assert_eq!(played(&folder.read("out")), [a, b].concat());
}

#[test]
fn the_sound_is_that_of_the_samples() {
    let folder = Folder::new();
    let clip = sound(1000, 8);
    folder.write("plain", image(&clip, 32_000, 80));
    folder.write("one", looped(&clip, 80, (140, 999)));
    folder.write("two", looped(&clip, 4096, (140, 1000)));
    let note = "doilycairn: note: the loops differ; sameness is that of the samples\n";
    for (line, told) in
        [("one one", ""), ("one two", note), ("plain one", note), ("plain plain", "")]
    {
        let run = folder.done(&format!("same --sound {line}"));
        assert_eq!((&run.out[..15], &run.err[..]), ("the same sound:", told), "{line}");
    }
    assert!(folder.done("help same").out.contains("rate, loop and all else may differ"));
}

#[test]
fn a_loop_that_is_moved_or_left_out_makes_another_image() {
    let folder = Folder::new();
    let clip = sound(1000, 8);
    folder.write("plain", image(&clip, 32_000, 80));
    folder.write("one", looped(&clip, 80, (140, 999)));
    folder.write("two", looped(&clip, 80, (140, 1000)));
    let one = "loop from sample 140 up to 999";
    for (line, words) in [
        ("one two", format!("different: {one} and loop from sample 140 up to 1,000\n")),
        ("one plain", format!("different: {one} and no loop\n")),
        ("plain one", format!("different: no loop and {one}\n")),
    ] {
        let run = folder.run(&format!("same {line}"));
        assert_eq!((run.status, run.out, &run.err[..]), (1, words, ""), "{line}");
    }
    folder.done("trim --drop-loop one out");
    folder.done("same out plain");
}
