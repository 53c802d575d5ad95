//! Many files in one call.

use crate::parse::Value;
use crate::support::{Folder, TOOL, image, sound, wav};
use std::process::Command;

/// A folder with WAV files and a file that is none.
fn folder() -> Folder {
    let folder = Folder::new();
    for (name, seed) in [("a.wav", 1), ("b.wav", 2), ("d.wav", 4)] {
        folder.write(name, wav(&sound(5000, seed), 32_000));
    }
    folder.write("c.wav", "none");
    folder
}

#[test]
fn all_are_encoded_and_decoded() {
    let folder = folder();
    for jobs in ["", "--jobs 1", "--jobs 7"] {
        let run = folder.run(&format!("encode {jobs} --into out a.wav b.wav c.wav d.wav"));
        run.expect(3, "4 files: 3 done, 1 failed");
        for (name, seed) in [("a", 1), ("b", 2), ("d", 4)] {
            let wanted = image(&sound(5000, seed), 32_000, 8192);
            assert_eq!(folder.read(&format!("out/{name}.dspc")), wanted);
        }
        assert!(!folder.has("out/c.dspc"));
        // A line for each file, in their order, and the summary.
        let lines: Vec<&str> = run.err.lines().collect();
        let begins = [
            "out/a.dspc: 5,000",
            "out/b.dspc: 5,000",
            "doilycairn: c.wav: not",
            "out/d.dspc: 5,000",
            "4 files",
        ];
        assert_eq!(lines.len(), begins.len(), "{}", run.err);
        assert!(
            lines.iter().zip(begins).all(|(line, begin)| line.starts_with(begin)),
            "{}",
            run.err
        );
    }
    folder.done("decode --into wavs out/a.dspc out/d.dspc");
    assert_eq!(folder.read("wavs/d.wav"), folder.done("decode out/d.dspc -").bytes);
    folder.done("decode --from 4000 --raw --into ends out/a.dspc out/d.dspc");
    assert_eq!(
        folder.read("ends/a.raw"),
        folder.done("decode --raw --from 4000 out/a.dspc -").bytes
    );
    assert_eq!(folder.read("ends/d.raw").len(), 2000);
    assert_eq!(folder.done("encode -q --into out a.wav b.wav").err, "");
}

#[test]
fn check_and_info_take_many() {
    let folder = folder();
    folder.done("encode --into out a.wav b.wav");
    folder.write("bad", "x");
    let run = folder.run("check out/a.dspc bad out/b.dspc absent");
    assert_eq!(run.status, 1);
    let lines: Vec<&str> = run.out.lines().filter(|line| !line.starts_with(' ')).collect();
    assert_eq!(lines.len(), 3, "{}", run.out);
    assert!(lines[0].starts_with("out/a.dspc: opens") && lines[2].starts_with("out/b.dspc: opens"));
    assert!(
        run.err.contains("cannot read absent") && run.err.contains("4 files: 2 done, 2 failed")
    );
    assert_eq!(folder.run("check absent bad").status, 5);
    let both = folder.done("info -q out/a.dspc out/b.dspc").out;
    let each = ["a", "b"].map(|name| folder.done(&format!("info out/{name}.dspc")).out);
    assert_eq!(both, each.concat());
    folder.run("info --svg x out/a.dspc out/b.dspc").expect(2, "--svg goes with one image");
}

#[test]
fn json_has_a_line_for_each() {
    let folder = folder();
    let run = folder.run("encode --json --into out a.wav c.wav b.wav");
    assert_eq!((run.status, &run.err[..]), (3, ""));
    let lines: Vec<Value> =
        run.out.lines().map(|line| Value::of_line(&format!("{line}\n"))).collect();
    assert_eq!(lines.len(), 4);
    assert_eq!([0, 1, 2, 3].map(|i: usize| lines[i].number("status")), [0.0, 3.0, 0.0, 3.0]);
    assert_eq!(lines[1].text("input"), "c.wav");
    assert_eq!((lines[0].text("output"), lines[2].text("output")), ("out/a.dspc", "out/b.dspc"));
    assert_eq!((lines[3].number("files"), lines[3].number("failed")), (3.0, 1.0));
}

/// A part that not every clip has.
#[test]
fn a_part_of_each() {
    let folder = folder();
    folder.done("encode --into out a.wav b.wav");
    folder.write("out/short.dspc", image(&sound(100, 1), 32_000, 80));
    let run =
        folder.run("decode --from 100 --count 7 --into w out/a.dspc out/short.dspc out/b.dspc");
    run.expect(
        4,
        "out/short.dspc: the first sample is not in the clip (refusal 19); it has 100 samples\n",
    );
    assert!(run.err.contains("w/b.wav: 7 samples from sample 100, 1 block touched, of out/b.dspc"));
    assert!(run.err.ends_with("3 files: 2 done, 1 failed\n"), "{}", run.err);
    assert_eq!(folder.read("w/a.wav").len(), 44 + 14);
    assert!(folder.has("w/b.wav") && !folder.has("w/short.wav"));
}

#[test]
fn what_cannot_be_meant() {
    let folder = folder();
    std::fs::create_dir(folder.path("other")).unwrap();
    folder.write("other/a.wav", wav(&sound(10, 1), 8000));
    let cases = [
        (
            "encode --into out a.wav other/a.wav",
            "a.wav and other/a.wav would both become out/a.dspc",
        ),
        ("encode --into out a.wav -", "standard input cannot be one of many files"),
        ("encode --into out --after - a.wav", "--after: standard input cannot serve many files"),
        ("encode --into out", "IN.wav is missing"),
        ("encode --into", "--into lacks its value"),
        ("encode --jobs 0 --into out a.wav", "--jobs: '0' is not a number from 1 to 256"),
        (
            "encode a.wav b.wav d.wav",
            "'d.wav' is one word too many: many files go to a folder, by --into",
        ),
        ("check a.wav -", "standard input cannot be one of many files"),
    ];
    for (line, words) in cases {
        folder.run(line).expect(2, words);
    }
    assert!(!folder.has("out"));
    folder.run("encode --into a.wav b.wav").expect(5, "cannot write a.wav");
}

#[test]
fn lines_of_runs_at_once_are_whole() {
    let folder = folder();
    let images: Vec<String> = (0..60).map(|i| format!("{i}.dspc")).collect();
    for name in &images {
        folder.write(name, image(&sound(100, 1), 32_000, 80));
    }
    for call in ["check {}", "decode {} {}.wav", "check no-{}"] {
        let script = format!("ls *.dspc | xargs -P 4 -I {{}} sh -c '{TOOL} {call} 2>&1'");
        let output =
            Command::new("sh").arg("-c").arg(script).current_dir(&folder.0).output().unwrap();
        let text = String::from_utf8(output.stdout).unwrap();
        let whole = |line: &&str| {
            line.ends_with(" in 1 block")
                || line.ends_with(".dspc")
                || line.ends_with("failed")
                || line.ends_with("directory (os error 2)")
        };
        let broken: Vec<&str> = text.lines().filter(|line| !whole(line)).collect();
        assert!(broken.is_empty() && text.lines().count() >= 60, "{broken:?}");
    }
}
