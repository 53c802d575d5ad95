//! Short memory: a failure in words, nothing left behind.

use crate::support::{Folder, Run, TOOL, image, looped, sound, wav};
use doilycairn::Image;
use std::process::Command;

/// Runs the tool with so many kilobytes of address space.
fn limited(folder: &Folder, kilobytes: u32, line: &str) -> Run {
    let script = format!("ulimit -v {kilobytes}; exec {TOOL} {line}");
    let mut shell = Command::new("sh");
    shell.env("RUST_BACKTRACE", "1");
    Run::of(&shell.arg("-c").arg(script).current_dir(&folder.0).output().unwrap())
}

#[test]
fn what_cannot_be_had_is_told() {
    let folder = Folder::new();
    let clip = sound(1_000_000, 1);
    folder.write("in.wav", wav(&clip, 32_000));
    folder.write("in.dspc", image(&clip, 32_000, 8192));
    folder.write("loop.dspc", looped(&clip, 8192, (1, 1_000_000)));
    folder.write("in.dsp", Image::open(&folder.read("in.dspc")).unwrap().to_dsp().unwrap());
    let lines = [
        "encode in.wav out",
        "trim --from 1 in.dspc out",
        "info --against in.wav in.dspc",
        "decode --raw --from 1 in.dspc raw",
        "decode --raw --loop 3 --lead-in loop.dspc raw",
        "export in.dspc out.dsp",
        "import --block-size 8 in.dsp out",
    ];
    for line in lines {
        // More and more, until it is enough; at first not even the program can be loaded.
        let mut told = 0;
        let done = (5000..50_000).step_by(700).find(|kilobytes| {
            let run = limited(&folder, *kilobytes, line);
            assert!([0, 5, 127].contains(&run.status), "{line} {kilobytes}: {run:?}");
            assert!(!run.err.contains("panicked") && !run.err.contains("backtrace"), "{run:?}");
            told += usize::from(run.err.contains("memory is short: "));
            run.status == 0
        });
        assert!(done.is_some() && told > 0, "{line}");
    }
    assert_eq!(
        folder.names(),
        ["in.dsp", "in.dspc", "in.wav", "loop.dspc", "out", "out.dsp", "raw"]
    );
}

#[test]
fn a_damaged_table_is_told_or_memory_is_short() {
    let folder = Folder::new();
    let mut bad = image(&sound(28_000, 1), 32_000, 8);
    bad[56..56 + 16 * 2000].fill(0xff);
    folder.write("a", &bad);
    folder.write("b", &bad);
    for line in ["check --json a", "check --json a b"] {
        let done = (5000..50_000).step_by(500).find(|kilobytes| {
            let run = limited(&folder, *kilobytes, line);
            assert!([1, 5, 127].contains(&run.status), "{line} {kilobytes}: {}", run.err);
            run.status == 1
        });
        assert!(done.is_some(), "{line}");
    }
}
