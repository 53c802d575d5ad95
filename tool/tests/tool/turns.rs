//! `decode --loop`: the loop's samples any number of times over, and before them what comes before the loop.

use crate::damage::names;
use crate::parse::Value;
use crate::support::*;
use doilycairn::{Image, Refusal};
use std::fs;

fn played(bytes: &[u8]) -> Vec<i16> {
    Image::open(bytes).unwrap().play().unwrap()
}

/// What is written of the image `in`, without a head.
fn turns(folder: &Folder, options: &str) -> Vec<u8> {
    folder.done(&format!("decode -q --raw {options} in -")).bytes
}

#[test]
fn worked_turns() {
    let folder = Folder::new();
    let mut bytes = ramp_image(8, Some((5, 17)));
    let once = [1030, 1036, 1042, 1048, 1054, 1060, 1066, 1072, 1078, 1078, 1078, 1078];
    folder.write("in", &bytes);
    for times in 0..4 {
        assert_eq!(turns(&folder, &format!("--loop {times}")), raw(&once.repeat(times)));
        let before = [1000, 1006, 1012, 1018, 1024];
        let wanted = [&before[..], &once.repeat(times)].concat();
        assert_eq!(turns(&folder, &format!("--lead-in --loop {times}")), raw(&wanted));
    }
    // From another stored history: block 1 begins from its own entry.
    bytes[98..102].fill(0);
    folder.write("in", &bytes);
    let other = [6, 12, 18, 24, 30, 36, 42, 48, 54, 1078, 1078, 1078];
    assert_eq!(turns(&folder, "--loop 2"), raw(&other.repeat(2)));
}

#[test]
fn turns_are_the_clips_samples() {
    let folder = Folder::new();
    let cases = [
        (1, 8, vec![(0, 1)]),
        (35, 8, vec![(0, 35), (0, 1), (13, 15), (14, 28), (33, 35)]),
        (1000, 80, vec![(0, 1000), (1, 140), (139, 281), (999, 1000)]),
        (40_000, 1024, vec![(1791, 1793), (12_345, 39_999)]),
    ];
    for (len, size, loops) in cases {
        for (start, end) in loops {
            let bytes = looped(&sound(len, 6), size, (start, end));
            let whole = played(&bytes);
            let (before, once) = (&whole[..start as usize], &whole[start as usize..end as usize]);
            folder.write("in", &bytes);
            for times in [1, 2, 7] {
                let wanted = once.repeat(times);
                assert!(
                    turns(&folder, &format!("--loop {times}")) == raw(&wanted),
                    "{len} {start} {end}"
                );
                let wanted = [before, &wanted].concat();
                folder.done(&format!("decode --force --lead-in --loop {times} in out.wav"));
                assert!(folder.read("out.wav") == wav(&wanted, 32_000), "{len} {start} {end}");
            }
        }
    }
}

/// Turns of short loops are written many at once, and long ones one by one.
#[test]
fn short_loops_often_and_long_ones() {
    let folder = Folder::new();
    let bytes = looped(&sound(100, 7), 80, (41, 42));
    folder.write("in", &bytes);
    assert!(turns(&folder, "--loop 200001") == raw(&[played(&bytes)[41]].repeat(200_001)));
    let bytes = looped(&sound(70_000, 7), 8192, (3, 65_540));
    folder.write("in", &bytes);
    let once = &played(&bytes)[3..65_540];
    assert!(turns(&folder, "--loop 3") == raw(&once.repeat(3)));
}

#[test]
fn no_samples() {
    let folder = Folder::new();
    folder.write("in", looped(&sound(100, 8), 80, (0, 50)));
    for options in ["--loop 0", "--loop 0 --lead-in"] {
        let run = folder.done(&format!("decode --force {options} in out.wav"));
        assert_eq!(folder.read("out.wav"), wav(&[], 32_000));
        let words =
            "0 samples, 0 turns of the loop from sample 0 up to 50, of in (0.0 ms at 32,000 Hz)";
        assert_eq!(run.err, format!("out.wav: {words}\n"));
    }
}

#[test]
fn an_image_without_a_loop() {
    let folder = Folder::new();
    let plain = image(&sound(100, 1), 32_000, 80);
    folder.write("in", &plain);
    folder.write("out", "old");
    for options in ["--loop 1", "--loop 0", "--lead-in --loop 3"] {
        let run = folder.run(&format!("decode {options} in out"));
        let words = "doilycairn: in: it has no loop: --loop has none to play\n";
        assert_eq!((run.status, &run.err[..]), (3, words));
        let json = Value::of_line(&folder.run(&format!("decode --json {options} in out")).out);
        assert_eq!((json.number("status"), json.get("error").get("refusal")), (3.0, &Value::Null));
    }
    // What is wrong with the image comes first.
    let mut lowest = plain.clone();
    lowest[24..28].copy_from_slice(&[0x80, 0, 0x80, 0]);
    let mut entry = ramp_image(8, Some((5, 17)));
    entry[103] = 1;
    for (bytes, refusal) in [
        (lowest, Refusal::LowestPair),
        (plain[..99].to_vec(), Refusal::BadHead),
        (entry, Refusal::BadLoop),
    ] {
        folder.write("bad", bytes);
        let json = Value::of_line(&folder.run("decode --json --loop 1 bad out").out);
        names(json.get("error"), refusal);
    }
    assert_eq!(folder.read("out"), b"old");
    assert_eq!(folder.names(), ["bad", "in", "out"]);
}

#[test]
fn one_of_many_without_a_loop() {
    let folder = Folder::new();
    folder.write("a.dspc", ramp_image(8, Some((5, 17))));
    folder.write("b.dspc", ramp_image(8, None));
    folder.write("c.dspc", ramp_image(16, Some((19, 20))));
    let run = folder.run("decode --loop 2 --into w a.dspc b.dspc c.dspc");
    run.expect(3, "doilycairn: b.dspc: it has no loop: --loop has none to play\n");
    assert!(run.err.ends_with("3 files: 2 done, 1 failed\n"), "{}", run.err);
    assert_eq!(folder.read("w/c.wav"), wav(&[1078; 2], 32_000));
    assert!(folder.has("w/a.wav") && !folder.has("w/b.wav"));
}

/// What a WAV file does not hold is refused before anything is written; headerless samples have no end of their own.
#[test]
fn more_than_a_wav_file_holds() {
    let folder = Folder::new();
    folder.write("in", looped(&sound(1000, 9), 80, (100, 1000)));
    folder.write("one", looped(&sound(1000, 9), 80, (100, 101)));
    let limit = "has 900 samples, and a WAV file up to 2,147,483,629; --raw has no limit; see";
    let cases = [
        (
            "--loop 2386093 in",
            format!("--loop: '2386093' is not a number from 0 to 2,386,092: a turn of in {limit}"),
        ),
        (
            "--loop 4294967295 --lead-in in",
            format!("is not a number from 0 to 2,386,092: a turn of in {limit}"),
        ),
        (
            "--loop 2147483530 --lead-in one",
            "is not a number from 0 to 2,147,483,529: a turn of one has 1 sample,".into(),
        ),
    ];
    for (line, words) in cases {
        folder.run(&format!("decode {line} out")).expect(2, &words);
        // Before the first byte is written, and to the device's end.
        folder.run(&format!("decode {line} /dev/full")).expect(2, &words);
        folder.run(&format!("decode --raw {line} /dev/full")).expect(5, "No space left on device");
    }
    for line in
        ["--loop 2386092 in", "--loop 2147483529 --lead-in one", "--loop 4294967295 --raw one"]
    {
        folder.run(&format!("decode {line} /dev/full")).expect(5, "No space left on device");
    }
    assert_eq!(folder.names(), ["in", "one"]);
}

#[test]
fn a_reader_that_has_enough() {
    let folder = Folder::new();
    folder.write("in", ramp_image(8, Some((5, 17))));
    let line = format!("{TOOL} decode --raw --loop 4294967295 in - | head -c 48 > out");
    let mut shell = std::process::Command::new("sh");
    assert!(shell.arg("-c").arg(line).current_dir(&folder.0).status().unwrap().success());
    assert_eq!(folder.read("out"), turns(&folder, "--loop 2"));
}

#[test]
fn command_lines_that_are_wrong() {
    let folder = Folder::new();
    folder.write("in", ramp_image(8, Some((5, 17))));
    let range = "is not a number from 0 to 4,294,967,295";
    let cases = [
        (
            "--loop 1 --block 0",
            "--loop and --block: give one of the two; see `doilycairn decode --help`",
        ),
        ("--loop 1 --from 0", "--loop and --from: give one of the two"),
        ("--count 5 --loop 1", "--loop and --count: give one of the two"),
        ("--lead-in", "--lead-in goes with --loop TIMES; see"),
        ("--lead-in --from 5", "--lead-in goes with --loop TIMES"),
        ("--lead-in=1 --loop 5", "--lead-in takes no value"),
        ("--loop x", &format!("--loop: 'x' {range}")),
        ("--loop -1", &format!("--loop: '-1' {range}")),
        ("--loop 5,17", &format!("--loop: '5,17' {range}")),
        ("--loop 4294967296", &format!("--loop: '4294967296' {range}")),
        ("--loop 1 --loop 1", "--loop is given twice"),
        ("--lop 1", "unknown option '--lop'; did you mean '--loop'?"),
    ];
    for (options, words) in cases {
        folder.run(&format!("decode {options} in out")).expect(2, words);
        let run = folder.run(&format!("decode {options} --into many in"));
        run.expect(2, words);
        assert_eq!(run.err.lines().count(), 1, "{}", run.err);
    }
    assert_eq!(folder.names(), ["in"]);
}

#[test]
fn what_is_said() {
    let folder = Folder::new();
    folder.write("in.dspc", ramp_image(8, Some((5, 17))));
    let cases = [
        ("--loop 1", "12 samples, 1 turn of the loop from sample 5 up to 17"),
        ("--loop 2", "24 samples, 2 turns of the loop from sample 5 up to 17"),
        (
            "--loop 3 --lead-in",
            "41 samples, 5 before the loop and 3 turns of it from sample 5 up to 17",
        ),
    ];
    for (options, words) in cases {
        let run = folder.done(&format!("decode --force {options} in.dspc out.wav"));
        assert!(run.err.starts_with(&format!("out.wav: {words}, of in.dspc (")), "{}", run.err);
        assert!(run.err.ends_with(" ms at 32,000 Hz)\n"), "{}", run.err);
    }
    let json =
        Value::of_line(&folder.done("decode --json --raw --loop 3 --lead-in in.dspc out").out);
    let names = ["samples", "times", "lead_in"];
    assert_eq!(names.map(|name| json.number(name)), [41.0, 3.0, 5.0]);
    assert_eq!((json.get("loop").number("start"), json.get("loop").number("end")), (5.0, 17.0));
    assert_eq!(json.get("block"), &Value::Null);
    let json = Value::of_line(&folder.done("decode --json --raw --loop 3 in.dspc out").out);
    assert_eq!(json.number("lead_in"), 0.0);
    let json = Value::of_line(&folder.done("decode --json --raw in.dspc out").out);
    assert!(!json.has("loop") && !json.has("times") && !json.has("lead_in"));
    assert_eq!(fs::metadata(folder.path("out")).unwrap().len(), 40);
}

/// As the README has it.
#[test]
fn the_readme_s_words() {
    let folder = Folder::new();
    folder.write("voice.wav", wav(&sound(1000, 3), 32_000));
    folder.done("encode --loop 140,999 voice.wav tune.dspc");
    let run = folder.done("decode --loop 4 --lead-in tune.dspc tune.wav");
    let readme = include_str!("../../README.md");
    assert!(readme.contains(&format!("\n    {}", run.err)), "{}", run.err);
    folder.write("in.wav", wav(&sound(1000, 3), 32_000));
    let run = folder.run("encode --cut-to-frame --loop 100,1000 in.wav out");
    assert!(readme.contains(&format!("\n    {}", run.err)), "{}", run.err);
    let mut bytes = ramp_image(8, Some((5, 17)));
    bytes[95] = 33;
    folder.write("tune.dspc", bytes);
    let out = folder.run("check tune.dspc").out;
    assert!(
        readme.contains(&format!("\n    {}\n", out.trim_end().replace('\n', "\n    "))),
        "{out}"
    );
}
