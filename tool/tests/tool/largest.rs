//! The largest clip: time and memory. Run in release: `cargo test --release --offline -- --ignored --nocapture`.

use crate::support::{Folder, Random, raw, wav};
use std::fs;
use std::process::Stdio;
use std::time::{Duration, Instant};

const SAMPLES: usize = 14_680_064;

/// Tones that change, and noise.
fn sound() -> Vec<i16> {
    let mut random = Random(3);
    let (mut phases, mut steps, mut level) = ([0.0f64; 2], [0.0f64; 2], 0.0);
    let sample = |i: usize| {
        if i.is_multiple_of(8000) {
            steps = [(); 2].map(|()| 0.005 + random.below(1000) as f64 * 0.0003);
            level = random.below(7000) as f64;
        }
        phases = [phases[0] + steps[0], phases[1] + steps[1]];
        let noise = random.below(512) as f64 - 256.0;
        (level * (phases[0].sin() + phases[1].sin()) + noise) as i16
    };
    (0..SAMPLES).map(sample).collect()
}

/// Runs the tool, which ends with this status: its time, and the most memory it had, in kilobytes.
fn measured(folder: &Folder, line: &str, status: i32) -> (Duration, u64) {
    let words: Vec<&str> = line.split(' ').collect();
    let start = Instant::now();
    let mut child = folder.tool(&words).stdout(Stdio::null()).spawn().unwrap();
    let told = format!("/proc/{}/status", child.id());
    let mut most = 0;
    let ended = loop {
        let text = fs::read_to_string(&told).unwrap_or_default();
        let peak = text.lines().find_map(|line| line.strip_prefix("VmHWM:"));
        let peak = peak.and_then(|rest| rest.trim().trim_end_matches(" kB").parse().ok());
        most = most.max(peak.unwrap_or(0));
        if let Some(ended) = child.try_wait().unwrap() {
            break ended;
        }
        std::thread::sleep(Duration::from_millis(1));
    };
    assert_eq!(ended.code(), Some(status), "{line}");
    println!("{line}: {:.2} s, {} kB", start.elapsed().as_secs_f64(), most);
    (start.elapsed(), most)
}

#[test]
#[ignore = "long without optimisation: see above"]
fn the_largest_clip() {
    let folder = Folder::new();
    let clip = sound();
    folder.write("in.wav", wav(&clip, 48_000));
    let lines = [
        ("encode --verify in.wav out.dspc", 60, 64_000),
        ("encode --block-size 8 in.wav eight.dspc", 60, 64_000),
        ("decode out.dspc out.wav", 10, 16_000),
        ("decode eight.dspc eight.wav", 10, 32_000),
        ("decode --from 1 out.dspc rest.wav", 10, 16_000),
        ("decode --from 1 eight.dspc eight-rest.wav", 10, 32_000),
        ("decode --from 7340032 --count 200 out.dspc part.wav", 5, 16_000),
        ("decode --from 7340032 --count 200 eight.dspc eight-part.wav", 5, 32_000),
        ("encode --loop 1,14680063 in.wav loop.dspc", 60, 64_000),
        ("encode --block-size 8 --loop 1,14680063 in.wav eight-loop.dspc", 60, 64_000),
        ("decode --loop 2 --lead-in loop.dspc turns.wav", 10, 48_000),
        ("decode --loop 2 --lead-in eight-loop.dspc eight-turns.wav", 10, 64_000),
        ("decode --loop 146 loop.dspc /dev/null", 30, 48_000),
        ("check --strict eight-loop.dspc", 10, 32_000),
        ("info --against in.wav out.dspc", 10, 48_000),
        ("export out.dspc out.dsp", 10, 32_000),
        ("export eight-loop.dspc eight-loop.dsp", 10, 48_000),
        ("import out.dsp back.dspc", 10, 32_000),
        ("import --block-size 8 eight-loop.dsp eight-back.dspc", 10, 48_000),
        ("decode out.dsp dsp.wav", 10, 32_000),
        ("check eight.dspc", 10, 32_000),
        ("same --sound out.dspc eight.dspc", 10, 48_000),
        ("same eight-loop.dspc eight-loop.dspc", 10, 64_000),
    ];
    for (line, seconds, kilobytes) in lines {
        limited(&folder, line, 0, seconds, kilobytes);
    }
    limited(&folder, "same eight.dspc eight-loop.dspc", 1, 10, 64_000);
    damaged(&folder);
    assert_eq!(folder.read("out.wav"), folder.read("eight.wav"));
    assert_eq!(folder.read("out.wav").len(), 44 + 2 * SAMPLES);
    parts(&folder);
    files(&folder);
    too_many(&folder, clip);
}

/// Runs the tool, which ends with this status, within so many seconds and kilobytes.
fn limited(folder: &Folder, line: &str, status: i32, seconds: u64, kilobytes: u64) {
    let (time, memory) = measured(folder, line, status);
    assert!(time < Duration::from_secs(seconds), "{line}: {time:?}");
    assert!(memory < kilobytes, "{line}: {memory} kB");
}

/// A million bad entries take no more memory than good ones.
fn damaged(folder: &Folder) {
    let mut bytes = folder.read("eight.dspc");
    let blocks = SAMPLES / 14;
    bytes[56..56 + 16 * blocks].fill(0xff);
    folder.write("bad.dspc", bytes);
    limited(folder, "check bad.dspc", 1, 10, 32_000);
    limited(folder, "check --json bad.dspc", 1, 60, 40_000);
    limited(folder, "decode bad.dspc none", 4, 10, 32_000);
    assert!(!folder.has("none"));
}

/// Parts are those of the whole.
fn parts(folder: &Folder) {
    let whole = &folder.read("out.wav")[44..];
    for name in ["rest.wav", "eight-rest.wav"] {
        assert!(folder.read(name)[44..] == whole[2..], "{name}");
    }
    for name in ["part.wav", "eight-part.wav"] {
        assert_eq!(folder.read(name)[44..], whole[2 * 7_340_032..][..400], "{name}");
    }
    for name in ["turns.wav", "eight-turns.wav"] {
        let (turns, end) = (&folder.read(name)[44..], 2 * SAMPLES - 2);
        assert!(turns[..end] == whole[..end] && turns[end..] == whole[2..end], "{name}");
    }
}

/// Images come back from .dsp files, which play as they do.
fn files(folder: &Folder) {
    assert!(folder.read("back.dspc") == folder.read("out.dspc"));
    assert!(folder.read("eight-back.dspc") == folder.read("eight-loop.dspc"));
    assert!(folder.read("dsp.wav") == folder.read("out.wav"));
}

/// One sample more is refused, however it comes.
fn too_many(folder: &Folder, mut clip: Vec<i16>) {
    clip.push(1);
    folder.write("in.wav", wav(&clip, 48_000));
    folder.run("encode in.wav none").expect(4, "(refusal 4); it has 14,680,065");
    folder.write("in.raw", raw(&clip));
    folder.run("encode --raw --rate 1 in.raw none").expect(4, "(refusal 4); it has more");
    folder.run("join out.dspc out.dspc none").expect(4, "(refusal 4); joined with out.dspc");
    assert!(!folder.has("none"));
}
