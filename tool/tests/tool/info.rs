//! `info`.

use crate::parse::Value;
use crate::support::{Folder, image, image_with, sound, wav};
use doilycairn::{Coefficients, History, Image};

fn numbers(values: &[Value]) -> Vec<i64> {
    let number = |value: &Value| match value {
        Value::Number(number) => *number as i64,
        other => panic!("{other:?}"),
    };
    values.iter().map(number).collect()
}

#[test]
fn the_head_and_the_frames() {
    let folder = Folder::new();
    let clip = sound(1001, 1);
    let coefficients = Coefficients::measure(&clip).unwrap();
    let history = History { newest: 3, older: -4 };
    let bytes = image_with(&clip, 44_100, 80, coefficients, history);
    let image = Image::open(&bytes).unwrap();
    folder.write("in", &bytes);
    let json = Value::of_line(&folder.done("info --json --blocks in").out);
    assert_eq!(json.number("samples"), 1001.0);
    assert_eq!(json.number("rate"), 44_100.0);
    assert_eq!(json.number("frames"), 72.0);
    assert_eq!(json.number("block_size"), 80.0);
    assert_eq!(json.number("bytes"), bytes.len() as f64);
    assert_eq!(numbers(json.list("history")), [3, -4]);
    assert_eq!(numbers(json.list("coefficients")), coefficients.0.map(i64::from));
    let played = image.play().unwrap();
    let end = [played[1000], played[999]].map(i64::from);
    assert_eq!(numbers(json.list("end_history")), end);
    let (mut pairs, mut exponents) = ([0; 8], [0; 16]);
    for header in image.blocks().flat_map(|block| block.bytes.chunks(8)).map(|frame| frame[0]) {
        pairs[usize::from(header >> 4)] += 1;
        exponents[usize::from(header & 15)] += 1;
    }
    assert_eq!(numbers(json.list("frames_by_predictor")), pairs);
    assert_eq!(numbers(json.list("frames_by_exponent")), exponents);
    for (k, (told, block)) in json.list("contexts").iter().zip(image.blocks()).enumerate() {
        assert_eq!(told.number("block"), k as f64);
        assert_eq!(numbers(told.list("history")), block.context.last_samples.map(i64::from));
        assert_eq!(told.number("nibbles"), f64::from(block.nibbles));
        let at = told.number("offset") as usize;
        assert_eq!(&bytes[at..][..told.number("bytes") as usize], block.bytes);
    }
    assert_eq!(json.list("contexts").len(), 8);
}

#[test]
fn words() {
    let folder = Folder::new();
    folder.write("in", image(&sound(20_000, 2), 32_000, 8192));
    let out = folder.done("info in").out;
    for words in
        ["20,000 at 32,000 Hz (625.0 ms)", "2 of up to 8,192 bytes", "predictor", "exponent"]
    {
        assert!(out.contains(words), "{words}: {out}");
    }
    assert!(!out.contains("newest   older"));
    let blocks = folder.done("info --blocks -q in").out;
    assert!(blocks.starts_with(&out) && blocks.lines().count() == out.lines().count() + 4);
}

#[test]
fn against_a_reference() {
    let folder = Folder::new();
    let clip = sound(3000, 3);
    let bytes = image(&clip, 32_000, 80);
    let played = Image::open(&bytes).unwrap().play().unwrap();
    folder.write("in", &bytes);
    folder.write("clip.wav", wav(&clip, 32_000));
    let json = Value::of_line(&folder.done("info --json --against clip.wav in").out);
    let against = json.get("against");
    let distances: Vec<_> = clip.iter().zip(&played).map(|(a, b)| a.abs_diff(*b)).collect();
    let largest = *distances.iter().max().unwrap();
    assert_eq!(against.number("largest"), f64::from(largest));
    let first = distances.iter().position(|distance| *distance == largest).unwrap();
    assert_eq!(against.number("sample"), first as f64);
    assert_eq!(against.number("beyond_bound"), 0.0);
    let samples: f64 = against.list("by_exponent").iter().map(|line| line.number("samples")).sum();
    assert_eq!(samples, 3000.0);
    for line in against.list("by_exponent") {
        let p = line.number("exponent") as u32;
        assert_eq!(line.number("bound"), f64::from((3 * 2u32.pow(p)).div_ceil(2)));
        assert!(line.number("largest") <= line.number("bound"));
    }
    folder.write("played.wav", wav(&played, 32_000));
    let json = Value::of_line(&folder.done("info --json --against played.wav in").out);
    assert_eq!(json.get("against").number("largest"), 0.0);
    assert_eq!(json.get("against").get("signal_to_noise_db"), &Value::Null);
}

#[test]
fn another_reference_is_told() {
    let folder = Folder::new();
    folder.write("in", image(&sound(100, 3), 32_000, 80));
    folder.write("short.wav", wav(&sound(99, 3), 32_000));
    folder.run("info --against short.wav in").expect(3, "99 samples, and the image has 100");
    folder.write("other.wav", wav(&[20_000; 100], 8000));
    let run = folder.done("info --against other.wav in");
    assert!(run.out.contains("beyond the bound"), "{}", run.out);
    assert!(run.err.contains("note: other.wav: rate 8,000, and the image has 32,000"));
    let quiet = folder.done("info -q --against other.wav in");
    assert_eq!((quiet.out, &quiet.err[..]), (run.out, ""));
    let json = Value::of_line(&folder.done("info --json --against other.wav in").out);
    assert_eq!(json.list("notes").len(), 1);
}

#[test]
fn a_picture() {
    let folder = Folder::new();
    for len in [1, 14, 5000] {
        let clip = sound(len, 4);
        folder.write("in", image(&clip, 32_000, 8192));
        folder.write("in.wav", wav(&clip, 32_000));
        for line in ["info --svg out.svg in", "info --svg out.svg --against in.wav in"] {
            folder.done(line);
            let svg = String::from_utf8(folder.read("out.svg")).unwrap();
            assert!(svg.contains("<svg") && svg.trim_end().ends_with("</svg>"));
        }
    }
    folder.run("info --svg - in").expect(2, "standard output has the answer");
    folder.run("info --svg in in").expect(2, "in is an input too");
    folder.run("info --svg none/out.svg in").expect(5, "cannot write none/out.svg");
}
