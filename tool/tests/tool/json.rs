//! `--json`: one object, of failures too.

use crate::damage::names;
use crate::parse::Value;
use crate::support::{Folder, image, looped, sound, wav};
use doilycairn::{Image, Refusal};
use std::ffi::OsStr;
use std::os::unix::ffi::OsStrExt;

#[test]
fn every_command_answers_one_object() {
    let folder = Folder::new();
    let clip = sound(280, 1);
    folder.write("in.wav", wav(&clip, 32_000));
    folder.write("a", image(&clip, 32_000, 80));
    folder.write("loop", looped(&clip, 80, (5, 17)));
    folder.write("none", "x");
    folder.write("in.dsp", Image::open(&folder.read("loop")).unwrap().to_dsp().unwrap());
    let cases = [
        ("encode in.wav out", 0),
        ("encode --verify in.wav out", 0),
        ("encode --loop 5,17 in.wav out", 0),
        ("decode a new", 0),
        ("decode --force --block 0 a new", 0),
        ("decode --force --from 100 --count 50 a new", 0),
        ("decode --force --count 0 a new", 0),
        ("decode --force --loop 2 --lead-in loop new", 0),
        ("decode --force --loop 2 in.dsp new", 0),
        ("export loop out.dsp", 0),
        ("import in.dsp out", 0),
        ("info in.dsp", 0),
        ("info a", 0),
        ("info --blocks loop", 0),
        ("check loop", 0),
        ("trim loop out", 0),
        ("join --drop-loop loop loop out", 0),
        ("info --blocks --against in.wav a", 0),
        ("check a", 0),
        ("check none", 1),
        ("same a a", 0),
        ("same a loop", 1),
        ("same --sound a a", 0),
        ("join a a out", 0),
        ("join --reencode a a out", 0),
        ("encode", 2),
        ("encode --what", 2),
        ("encode in.wav -", 2),
        ("encode none out", 3),
        ("encode --wav-loop in.wav out", 3),
        ("encode --loop 5,281 in.wav out", 4),
        ("encode --loop 5 in.wav out", 2),
        ("decode --loop 1 a new", 2),
        ("decode --loop 1 a x", 3),
        ("decode --lead-in loop x", 2),
        ("join loop a out", 3),
        ("export none x", 4),
        ("export a -", 2),
        ("import none x", 4),
        ("import --block-size 7 in.dsp x", 2),
        ("decode none x", 4),
        ("decode --from 280 a x", 4),
        ("decode --from 280 --block 0 a x", 2),
        ("decode absent x", 5),
    ];
    for (line, status) in cases {
        let run = folder.run(&format!("{line} --json"));
        assert_eq!((run.status, &run.err[..]), (status, ""), "{line}");
        let json = Value::of_line(&run.out);
        assert_eq!(json.text("command"), line.split(' ').next().unwrap());
        assert_eq!(json.number("status"), f64::from(status));
        assert_eq!(json.has("error"), status >= 2, "{line}");
        assert!(json.list("notes").is_empty());
    }
}

#[test]
fn failures_have_their_numbers() {
    let folder = Folder::new();
    folder.write("none", "x");
    let json = Value::of_line(&folder.run("decode --json none out").out);
    names(json.get("error"), Refusal::BadHead);
    assert!(json.get("error").text("message").starts_with("none: not an image"));
    let json = Value::of_line(&folder.run("decode --json absent out").out);
    let error = json.get("error");
    assert_eq!([error.get("refusal"), error.get("block")], [&Value::Null; 2]);
    let json = Value::of_line(&folder.run("what --json").out);
    assert_eq!((json.text("command"), json.number("status")), ("", 2.0));
}

#[test]
fn paths_are_escaped() {
    let folder = Folder::new();
    let name = OsStr::from_bytes(b"q\"\\\n\x01\xff.wav");
    std::fs::write(folder.0.join(name), wav(&sound(100, 1), 8000)).unwrap();
    let words = [OsStr::new("encode"), OsStr::new("--json"), name, OsStr::new("out")];
    let output = folder.tool(&words).output().unwrap();
    assert_eq!(output.status.code(), Some(0));
    let json = Value::of_line(std::str::from_utf8(&output.stdout).unwrap());
    assert_eq!(json.text("input"), "q\"\\\n\u{1}\u{fffd}.wav");
    assert_eq!(json.text("input_hex"), "71225c0a01ff2e776176");
    assert_eq!(json.text("output"), "out");
    assert!(!json.has("output_hex"));
}
