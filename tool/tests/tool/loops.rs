//! Loops: `encode --loop`, and what `info` and `check` tell of them.

use crate::damage::names;
use crate::parse::Value;
use crate::support::*;
use doilycairn::{Coefficients, History, Image, Refusal};

/// The bytes that hexadecimal digits say, in groups.
fn hex(digits: &str) -> Vec<u8> {
    let digits = digits.replace(' ', "");
    let byte = |i| u8::from_str_radix(&digits[i..i + 2], 16).unwrap();
    (0..digits.len()).step_by(2).map(byte).collect()
}

/// A folder with the ramp and its coefficients.
fn folder() -> Folder {
    let folder = Folder::new();
    folder.write("ramp", raw(&ramp()));
    folder.write("bank", format!("2048 {}", "0 ".repeat(15)));
    folder
}

const RAMP: &str = "encode --raw --rate 32000 --gain 7 --history 1000,990 --coefficients bank";

/// The start and the end of the loop that an object tells.
fn points(json: &Value) -> (f64, f64) {
    (json.get("loop").number("start"), json.get("loop").number("end"))
}

#[test]
fn worked_images() {
    let folder = folder();
    let bodies = hex("0006666666666666 07000000");
    let cases = [
        ("--block-size 8", 100, ""),
        ("--block-size 8 --loop 5,17", 116, "00000005 00000011 0000 0400 03FA 0000"),
        ("--block-size 8 --loop 0,20", 116, "00000000 00000014 0000 03E8 03DE 0000"),
        ("--block-size 8 --loop 1,3", 116, "00000001 00000003 0000 03E8 03E8 0000"),
        ("--block-size 8 --loop 14,20", 116, "0000000E 00000014 0007 0436 0430 0000"),
        ("--block-size 16 --loop 19,20", 100, "00000013 00000014 0007 0436 0436 0000"),
    ];
    for (options, size, entry) in cases {
        folder.done(&format!("{RAMP} {options} ramp out"));
        let (bytes, entry) = (folder.read("out"), hex(entry));
        assert_eq!((bytes.len(), bytes[51]), (size, u8::from(!entry.is_empty())), "{options}");
        let at = 56 + 16 * usize::from(bytes[55]);
        assert_eq!(bytes[at..], [&entry[..], &bodies].concat(), "{options}");
        assert_eq!(usize::from(bytes[59]), at + entry.len(), "{options}");
        folder.done("check --strict out");
    }
    folder.done(&format!("{RAMP} --block-size 8 --loop 5,17 ramp out"));
    assert_eq!(folder.read("out"), ramp_image(8, Some((5, 17))));
    assert_eq!(
        (folder.read("out")[75], &folder.read("out")[50..56]),
        (112, &[0, 1, 0, 0, 0, 2][..])
    );
}

/// The library's own, from pieces of 77 samples; the program feeds 32,768 at a time.
#[test]
fn the_image_is_the_librarys() {
    let folder = Folder::new();
    let cases = [
        (1, 8, vec![(0, 1)]),
        (35, 8, vec![(0, 35), (0, 1), (13, 14), (14, 15), (27, 35), (34, 35)]),
        (1000, 80, vec![(1, 999), (140, 1000), (139, 141), (998, 1000)]),
        (
            70_000,
            8192,
            vec![(32_767, 32_768), (32_768, 70_000), (32_775, 40_000), (69_999, 70_000)],
        ),
    ];
    for (len, size, loops) in cases {
        let clip = sound(len, 1);
        folder.write("in.wav", wav(&clip, 32_000));
        for (start, end) in loops {
            folder.done(&format!("encode --loop {start},{end} --block-size {size} in.wav out"));
            assert_eq!(
                folder.read("out"),
                looped(&clip, size, (start, end)),
                "{len} {start} {end}"
            );
        }
    }
}

#[test]
fn places_are_samples_or_times() {
    let folder = Folder::new();
    folder.write("in.wav", wav(&sound(2800, 1), 1400));
    let cases = [
        ("700,2100", (700.0, 2100.0)),
        ("0.5s,2100", (700.0, 2100.0)),
        ("0.5s,0:01.5", (700.0, 2100.0)),
        ("0:00,2s", (0.0, 2800.0)),
    ];
    for (value, wanted) in cases {
        let json =
            Value::of_line(&folder.done(&format!("encode --json --loop {value} in.wav out")).out);
        assert_eq!(points(&json), wanted, "{value}");
        assert_eq!(points(&Value::of_line(&folder.done("info --json out").out)), wanted);
    }
    // The rate of each file.
    folder.write("slow.wav", wav(&sound(2800, 1), 700));
    folder.done("encode --loop 0.5s,1s --into both in.wav slow.wav");
    for (name, wanted) in [("in", (700.0, 1400.0)), ("slow", (350.0, 700.0))] {
        let run = folder.done(&format!("info --json both/{name}.dspc"));
        assert_eq!(points(&Value::of_line(&run.out)), wanted);
    }
}

#[test]
fn samples_keep_their_numbers() {
    let folder = Folder::new();
    let clip = sound(1000, 2);
    folder.write("in.wav", wav(&clip, 32_000));
    let mut padded = clip.clone();
    padded.resize(1008, clip[999]);
    for (option, clip, end) in [
        ("--pad-to-frame", &padded[..], 1000),
        ("--pad-to-frame", &padded, 1008),
        ("--cut-to-frame", &clip[..994], 994),
    ] {
        folder.done(&format!("encode {option} --loop 100,{end} in.wav out"));
        assert_eq!(folder.read("out"), looped(clip, 8192, (100, end)), "{option} {end}");
    }
    // After another clip they are still counted from this one's first.
    folder.done("encode --pad-to-frame in.wav a");
    folder.done("encode --after a --loop 100,1000 in.wav b");
    let coefficients = Coefficients::measure(&padded).unwrap();
    let played = Image::open(&folder.read("a")).unwrap().play().unwrap();
    let history = History { newest: played[1007], older: played[1006] };
    let wanted = looped_with(&clip, 8192, coefficients, history, (100, 1000));
    assert_eq!(folder.read("b"), wanted);
}

#[test]
fn a_loop_outside_the_clip() {
    let folder = Folder::new();
    folder.write("in.wav", wav(&sound(1000, 3), 32_000));
    folder.write("none.wav", wav(&[], 32_000));
    folder.write("wide", "32767 -28674 0 0 0 0 0 0 0 0 0 0 0 0 0 0");
    let cases = [
        ("3,3", "from sample 3 up to 3, and the clip has 1,000 samples"),
        ("4,3", "from sample 4 up to 3, and the clip has 1,000 samples"),
        ("0,1001", "from sample 0 up to 1,001, and the clip has 1,000 samples"),
        ("1000,1001", "from sample 1,000 up to 1,001, and the clip has 1,000 samples"),
        ("0,4294967296", "from sample 0 up to 4,294,967,296, and the clip has 1,000 samples"),
        ("4294967296,4294967297", "from sample 4,294,967,296 up to 4,294,967,297, and the"),
        (
            "--cut-to-frame 100,1000",
            "up to 1,000, and the clip has 994 samples; 6 samples left out",
        ),
        ("--pad-to-frame 100,1009", "up to 1,009, and the clip has 1,008 samples; 8 samples added"),
    ];
    for (value, words) in cases {
        let (option, value) = value.rsplit_once(' ').unwrap_or(("", value));
        let line = format!("encode {option} --loop {value} in.wav out");
        let run = folder.run(&line);
        run.expect(4, &format!("doilycairn: in.wav: {}; it is ", Refusal::LoopOutside));
        assert!(run.err.contains(words), "{}", run.err);
        names(
            Value::of_line(&folder.run(&format!("{line} --json")).out).get("error"),
            Refusal::LoopOutside,
        );
    }
    // What is asked before the loop is told before it.
    folder.run("encode --loop 3,3 none.wav out").expect(4, "(refusal 4); it has 0");
    folder
        .run("encode --loop 3,3 --coefficients wide in.wav out")
        .expect(4, "wide: a pair of coefficients");
    assert!(!folder.has("out"));
    let run = folder.run("encode --loop 900,1000 --into many in.wav none.wav");
    run.expect(4, "2 files: 1 done, 1 failed");
}

#[test]
fn command_lines_that_are_wrong() {
    let folder = Folder::new();
    folder.write("in.wav", wav(&sound(100, 1), 32_000));
    let shape = "is not START,END: two samples' numbers or times (12.5s or 1:02.5); see `doilycairn encode --help`";
    for value in
        ["5", "5,", ",5", "5-17", "5,17,20", "x,17", "5,-17", "5,1.5", "1:60,2:00", "0x5,0x11"]
    {
        let words = format!("--loop: '{value}' {shape}");
        folder.run(&format!("encode --loop {value} in.wav out")).expect(2, &words);
        // With many files it is told once, before anything is made.
        let run = folder.run(&format!("encode --loop {value} --into many in.wav"));
        assert_eq!((run.status, run.err), (2, format!("doilycairn: {words}\n")));
    }
    let cases = [
        ("--loop", "--loop lacks its value"),
        ("in.wav out --loop 1,2 --loop 1,2", "--loop is given twice"),
        ("--loop 1,2 --wav-loop in.wav out", "--loop and --wav-loop: give one of the two"),
        ("--wav-loop --raw --rate 1 in.wav out", "--wav-loop goes with WAV files"),
        ("--drop-loop in.wav out", "unknown option '--drop-loop'"),
    ];
    for (line, words) in cases {
        folder.run(&format!("encode {line}")).expect(2, words);
    }
    assert_eq!(folder.names(), ["in.wav"]);
}

#[test]
fn what_is_said() {
    let folder = Folder::new();
    folder.write("in.wav", wav(&sound(1000, 4), 32_000));
    let run = folder.done("encode --verify --block-size 80 --loop 140,999 in.wav out");
    assert!(
        run.err.contains("(2.59 to 1); loop from sample 140 up to 999; verified: "),
        "{}",
        run.err
    );
    assert_eq!(folder.done("encode -q --loop 140,999 in.wav quiet").err, "");
    let out = folder.done("info out").out;
    let words =
        "  loop       from sample 140 (4.4 ms) up to 999 (31.2 ms): 859 samples (26.8 ms)\n";
    assert!(out.contains(words) && out.contains("             each turn begins after "), "{out}");
    let words = "out: opens and plays: 1,000 samples at 32,000 Hz (31.2 ms) in 8 blocks; loop from sample 140 up to 999\n";
    assert_eq!(folder.done("check out").out, words);
    folder.done("encode in.wav plain");
    assert!(!folder.done("info plain").out.contains("loop"));
    assert!(!folder.done("check plain").out.contains("loop"));
    let run = folder.feed("encode --raw --rate 8000 --loop 1,2 - -", &raw(&[5; 3]));
    assert_eq!((run.status, run.bytes[51]), (0, 1));
}

#[test]
fn json_tells_the_loop() {
    let folder = Folder::new();
    folder.write("in.wav", wav(&ramp(), 32_000));
    folder.write("in", ramp_image(8, Some((5, 17))));
    folder.write("plain", ramp_image(8, None));
    let encode = Value::of_line(&folder.done("encode --json --loop 5,17 in.wav out").out);
    for json in [&encode, &Value::of_line(&folder.done("info --json in").out)] {
        let told = json.get("loop");
        let names = ["start", "end", "samples", "start_seconds", "end_seconds"];
        let wanted = [5.0, 17.0, 12.0, 5.0 / 32_000.0, 17.0 / 32_000.0];
        assert_eq!(names.map(|name| told.number(name)), wanted);
    }
    for command in ["info", "check"] {
        let json = Value::of_line(&folder.done(&format!("{command} --json in")).out);
        let (told, before) = (json.get("loop"), [Value::Number(1024.0), Value::Number(1018.0)]);
        assert_eq!(told.number("predictor_and_scale"), 0.0);
        assert_eq!((told.list("history"), told.list("played")), (&before[..], &before[..]));
        assert_eq!(told.get("click"), &Value::Bool(false));
        let json = Value::of_line(&folder.done(&format!("{command} --json plain")).out);
        assert_eq!(json.get("loop"), &Value::Null);
    }
    let json = Value::of_line(&folder.done("encode --json in.wav out").out);
    assert_eq!(json.get("loop"), &Value::Null);
}

/// Sizes and offsets count the loop's entry.
#[test]
fn sizes_and_offsets() {
    let folder = Folder::new();
    let bytes = ramp_image(8, Some((5, 17)));
    folder.write("in", &bytes);
    folder.write("more", [&bytes[..], &[9; 7]].concat());
    let json = Value::of_line(&folder.done("info --json --blocks in").out);
    assert_eq!((json.number("bytes"), json.number("bytes_after")), (116.0, 0.0));
    let offsets: Vec<f64> =
        json.list("contexts").iter().map(|block| block.number("offset")).collect();
    assert_eq!(offsets, [104.0, 112.0]);
    let out = folder.done("info --blocks in").out;
    assert!(
        out.contains("        0         104       16 ")
            && out.contains("        1         112        8 "),
        "{out}"
    );
    assert!(out.contains("  image      116 bytes, 0.34 to 1\n"), "{out}");
    for command in ["check", "info"] {
        let json = Value::of_line(&folder.done(&format!("{command} --json more")).out);
        assert_eq!(json.number("bytes_after"), 7.0);
    }
    assert!(folder.done("check more").out.contains("  7 bytes after the image\n"));
}

#[test]
fn the_picture_marks_start_and_end() {
    let folder = Folder::new();
    folder.write("in", looped(&sound(1120, 5), 80, (140, 700)));
    folder.done("info --svg out.svg in");
    let svg = String::from_utf8(folder.read("out.svg")).unwrap();
    assert!(svg.contains(">loop from 140 up to 700<") && svg.contains(">loop<"));
    assert!(
        svg.contains(">Loop from sample 140 (4.4 ms) up to 700 (21.9 ms): 560 samples (17.5 ms).<")
    );
    // A sample is one unit wide, from 64 on.
    for x in ["M204 ", "M764 "] {
        let marks = svg.lines().filter(|line| line.contains("class=\"loop\"") && line.contains(x));
        assert!(marks.count() >= 2, "{x}");
    }
}
