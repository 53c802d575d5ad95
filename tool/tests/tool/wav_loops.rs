//! `encode --wav-loop`: the loop of a WAV file's smpl chunk.

use crate::damage::names;
use crate::parse::Value;
use crate::support::*;
use doilycairn::Refusal;

/// A WAV file of 1,000 samples with these chunks before and after the samples.
fn file(before: &[Vec<u8>], after: &[Vec<u8>]) -> Vec<u8> {
    let form = [chunk(b"fmt ", &format(1, 1, 32_000, 16))];
    let data = [chunk(b"data", &raw(&sound(1000, 1)))];
    riff(&[&form[..], before, &data, after].concat())
}

fn with_loops(loops: &[(u32, u32, u32)]) -> Vec<u8> {
    file(&[], &[sampler(loops)])
}

/// What the library encodes with this loop.
fn wanted(points: (u32, u32)) -> Vec<u8> {
    looped(&sound(1000, 1), 8192, points)
}

#[test]
fn the_first_that_is_played_forwards() {
    let folder = Folder::new();
    let cases: [(&[_], _, _); 6] = [
        (&[(0, 100, 899)], (100, 900), "loop from sample 100 up to 900 (smpl chunk: 100 to 899)\n"),
        (&[(0, 0, 999)], (0, 1000), "loop from sample 0 up to 1,000 (smpl chunk: 0 to 999)\n"),
        (&[(0, 7, 7)], (7, 8), "loop from sample 7 up to 8 (smpl chunk: 7 to 7)\n"),
        (
            &[(0, 5, 9), (0, 1, 2)],
            (5, 10),
            "loop from sample 5 up to 10 (smpl chunk, loop 1 of 2: 5 to 9)\n",
        ),
        (
            &[(1, 5, 9), (2, 5, 9), (0, 1, 2), (0, 3, 4)],
            (1, 3),
            "loop from sample 1 up to 3 (smpl chunk, loop 3 of 4: 1 to 2)\n",
        ),
        (
            &[(99, 5, 9), (0, 1, 2)],
            (1, 3),
            "loop from sample 1 up to 3 (smpl chunk, loop 2 of 2: 1 to 2)\n",
        ),
    ];
    for (loops, points, words) in cases {
        folder.write("in.wav", with_loops(loops));
        let run = folder.done("encode --wav-loop in.wav out");
        assert!(
            run.err.ends_with(&format!("; {words}")) && !run.err.contains("note"),
            "{}",
            run.err
        );
        assert_eq!(folder.read("out"), wanted(points));
        let json = Value::of_line(&folder.done("encode --wav-loop --json in.wav out").out);
        let told = json.get("loop");
        assert_eq!((told.number("start"), told.number("end")), (points.0.into(), points.1.into()));
        assert!(json.list("notes").is_empty());
    }
}

#[test]
fn wherever_it_stands_and_from_a_pipe() {
    let folder = Folder::new();
    let loops = sampler(&[(0, 100, 899)]);
    let list = chunk(b"LIST", &[1; 7]);
    let mut long = loops[8..].to_vec();
    long.extend([7; 33]);
    let files = [
        file(std::slice::from_ref(&loops), &[]),
        file(&[], &[list.clone(), loops.clone(), list.clone()]),
        file(&[list], &[loops.clone(), sampler(&[(0, 1, 2)])]),
        file(&[], &[chunk(b"smpl", &long)]),
    ];
    for bytes in files {
        folder.write("in.wav", &bytes);
        folder.done("encode --wav-loop in.wav out");
        assert_eq!(folder.read("out"), wanted((100, 900)));
        let run = folder.feed("encode --wav-loop - -", &bytes);
        assert_eq!((run.status, run.bytes == wanted((100, 900))), (0, true), "{}", run.err);
    }
    // Without the option nothing is read after the samples of a pipe.
    let run = folder.feed("encode - -", &file(&[], &[loops]));
    assert!(run.status == 0 && !run.err.contains("note"), "{}", run.err);
}

/// Files without a loop that can be taken, and why.
fn without() -> [(Vec<u8>, &'static str); 7] {
    let whole = sampler(&[(0, 100, 899)]);
    let cut = chunk(b"smpl", &whole[8..8 + 59]);
    let none = "it has no loop (its smpl chunk has none)";
    [
        (file(&[], &[]), "it has no loop (no smpl chunk)"),
        (with_loops(&[]), none),
        (file(&[], &[chunk(b"smpl", &[1; 9])]), none),
        (file(&[], &[cut]), none),
        (with_loops(&[(1, 5, 9)]), "its loop is not played forwards (smpl chunk)"),
        (with_loops(&[(2, 5, 9)]), "its loop is not played forwards (smpl chunk)"),
        (
            with_loops(&[(2, 5, 9), (1, 1, 2)]),
            "none of its 2 loops is played forwards (smpl chunk)",
        ),
    ]
}

#[test]
fn a_file_without_one_is_refused() {
    let folder = Folder::new();
    folder.write("out", "old");
    for (bytes, why) in without() {
        folder.write("in.wav", bytes);
        let run = folder.run("encode --wav-loop in.wav out");
        let words = format!("doilycairn: in.wav: {why}: --wav-loop has none to take\n");
        assert_eq!((run.status, run.err), (3, words));
        assert_eq!(
            Value::of_line(&folder.run("encode --wav-loop --json in.wav out").out).number("status"),
            3.0
        );
    }
    assert_eq!(folder.read("out"), b"old");
}

/// Tunes and single sounds in one call.
#[test]
fn among_many_it_is_a_note() {
    let folder = Folder::new();
    folder.write("tune.wav", with_loops(&[(0, 100, 899)]));
    for (bytes, why) in without() {
        folder.write("in.wav", bytes);
        let run = folder.done("encode --wav-loop --into out in.wav tune.wav");
        let note = format!("doilycairn: note: in.wav: {why}: it is encoded without one\n");
        assert!(run.err.starts_with(&note) && run.err.contains("\nout/in.dspc: "), "{}", run.err);
        assert!(run.err.ends_with("2 files: 2 done, 0 failed\n"), "{}", run.err);
        assert_eq!(folder.read("out/in.dspc"), image(&sound(1000, 1), 32_000, 8192));
        assert_eq!(folder.read("out/tune.dspc"), wanted((100, 900)));
        // A single file that goes to a folder is treated as one of many.
        let run = folder.done("encode --wav-loop --into out --json in.wav");
        assert!(
            run.out.lines().next().unwrap().contains("it is encoded without one"),
            "{}",
            run.out
        );
    }
}

#[test]
fn a_loop_that_is_not_in_the_clip() {
    let folder = Folder::new();
    let cases = [
        ((0, 100, 1000), "from sample 100 up to 1,001, and the clip has 1,000 samples"),
        ((0, 100, u32::MAX), "from sample 100 up to 4,294,967,296, and the clip has 1,000 samples"),
        ((0, 900, 100), "from sample 900 up to 101, and the clip has 1,000 samples"),
    ];
    folder.write("tune.wav", with_loops(&[(0, 100, 899)]));
    for (points, words) in cases {
        folder.write("in.wav", with_loops(&[points]));
        let run = folder.run("encode --wav-loop in.wav out");
        run.expect(4, &format!("in.wav: {}; it is {words}\n", Refusal::LoopOutside));
        let json = Value::of_line(&folder.run("encode --json --wav-loop in.wav out").out);
        names(json.get("error"), Refusal::LoopOutside);
        // Among many it is a failure of that file.
        let run = folder.run("encode --wav-loop --into many in.wav tune.wav");
        run.expect(4, "2 files: 1 done, 1 failed\n");
        assert!(!folder.has("many/in.dspc") && folder.has("many/tune.dspc"));
    }
    folder.write("in.wav", with_loops(&[(0, 100, 999)]));
    folder
        .run("encode --cut-to-frame --wav-loop in.wav out")
        .expect(4, "has 994 samples; 6 samples left out\n");
    folder.done("encode --pad-to-frame --wav-loop in.wav out");
    let json = Value::of_line(&folder.done("info --json out").out);
    assert_eq!((json.number("samples"), json.get("loop").number("end")), (1008.0, 1000.0));
}

#[test]
fn one_that_is_not_taken_is_told() {
    let folder = Folder::new();
    folder.write("in.wav", with_loops(&[(0, 100, 899)]));
    folder.write("in", image(&sound(1000, 1), 32_000, 80));
    let run = folder.done("encode --loop 5,17 in.wav out");
    let words = "note: in.wav: its loop, from sample 100 to 899 (smpl chunk), is left out\n";
    assert!(run.err.contains(words), "{}", run.err);
    // Beside an image nothing of the recording is left out.
    assert_eq!(folder.done("info --against in.wav in").err, "");
    assert!(!folder.done("trim --from 1 --recording in.wav in out").err.contains("loop"));
}
