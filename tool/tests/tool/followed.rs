//! Clips that others follow.

use crate::parse::Value;
use crate::support::{Folder, image, image_with, sound, wav};
use doilycairn::{Coefficients, History};

#[test]
fn after_a_clip_whose_last_frame_is_not_full() {
    let folder = Folder::new();
    folder.write("a.wav", wav(&sound(1000, 1), 32_000));
    folder.write("b.wav", wav(&sound(500, 2), 32_000));
    folder.done("encode a.wav a");
    let run = folder.done("encode --after a b.wav b");
    let words = "note: a: 1,000 samples: its last frame is not full, and `join` will not";
    assert!(run.err.contains(words) && run.err.contains("--pad-to-frame"), "{}", run.err);
    let json = Value::of_line(&folder.done("encode --json --after a b.wav b").out);
    assert_eq!(json.list("notes").len(), 1);
    folder.run("join a b out").expect(3, "its last frame is not full");
    folder.run("join a b out").expect(3, "encode it with --pad-to-frame or --cut-to-frame");
}

#[test]
fn padded_and_cut_clips_can_be_followed() {
    let folder = Folder::new();
    folder.write("b.wav", wav(&sound(500, 2), 32_000));
    for len in 14..=28 {
        let clip = sound(len, 1);
        folder.write("a.wav", wav(&clip, 32_000));
        for (option, total) in
            [("--pad-to-frame", len.div_ceil(14) * 14), ("--cut-to-frame", len / 14 * 14)]
        {
            folder.done(&format!("encode {option} a.wav a"));
            let mut wanted = clip.clone();
            wanted.resize(total, clip[len - 1]);
            assert_eq!(folder.read("a"), image(&wanted, 32_000, 8192), "{len} {option}");
            let run = folder.done("encode --after a b.wav b");
            assert!(!run.err.contains("note"), "{}", run.err);
            folder.done("join a b out");
            let json = Value::of_line(&folder.done("info --json out").out);
            assert_eq!(json.number("samples"), (total + 500) as f64);
            assert!(json.list("clicks").is_empty());
        }
    }
}

#[test]
fn what_was_added_or_left_out_is_said() {
    let folder = Folder::new();
    folder.write("in.wav", wav(&sound(1000, 1), 32_000));
    folder.write("short.wav", wav(&sound(13, 1), 32_000));
    assert!(folder.done("encode --pad-to-frame in.wav a").err.contains("; 8 samples added"));
    assert!(folder.done("encode --cut-to-frame in.wav a").err.contains("; 6 samples left out"));
    let json = Value::of_line(&folder.done("encode --json --cut-to-frame in.wav a").out);
    assert_eq!((json.number("samples_added"), json.number("samples_left_out")), (0.0, 6.0));
    folder
        .run("encode --cut-to-frame short.wav x")
        .expect(3, "13 samples: --cut-to-frame would leave none");
    folder.run("encode --cut-to-frame --pad-to-frame in.wav x").expect(2, "give one of the two");
}

/// The lines of README.md that encode, follow and join, as they stand there.
#[test]
fn the_readme_s_example() {
    let folder = Folder::new();
    let clip = sound(2500, 3);
    folder.write("voice.wav", wav(&clip[..1000], 32_000));
    folder.write("more.wav", wav(&clip[1000..], 32_000));
    let readme = include_str!("../../README.md");
    let lines = readme.lines().filter_map(|line| line.strip_prefix("    doilycairn "));
    let lines: Vec<&str> = lines.map(|line| line.split('#').next().unwrap().trim()).collect();
    assert!(lines.len() > 10, "{lines:?}");
    for line in &lines {
        folder.done(line);
    }
    let mut voice = clip[..1000].to_vec();
    voice.resize(1008, clip[999]);
    let coefficients = Coefficients::measure(&voice).unwrap();
    let whole = [voice, clip[1000..].to_vec()].concat();
    let wanted = image_with(&whole, 32_000, 8192, coefficients, History::default());
    assert_eq!(folder.read("whole.dspc"), wanted);
    for name in ["back.dspc", "studio.dspc"] {
        assert_eq!(folder.read(name), folder.read("voice.dspc"));
    }
}
