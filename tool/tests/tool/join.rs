//! `join`.

use crate::parse::Value;
use crate::support::{Folder, image, image_with, sound};
use doilycairn::{Coefficients, History, Image};

fn played(bytes: &[u8]) -> Vec<i16> {
    Image::open(bytes).unwrap().play().unwrap()
}

/// The history after an image.
fn end(bytes: &[u8]) -> History {
    let samples = played(bytes);
    let [.., older, newest] = samples[..] else { panic!("too short") };
    History { newest, older }
}

/// Coefficients for every clip here.
fn coefficients() -> Coefficients {
    Coefficients::measure(&sound(5000, 1)).unwrap()
}

fn encoded(clip: &[i16], block_size: u32, history: History) -> Vec<u8> {
    image_with(clip, 32_000, block_size, coefficients(), history)
}

#[test]
fn whole_blocks_and_then_any_clip() {
    let folder = Folder::new();
    for (size, blocks) in [(8, 1), (8, 7), (80, 3), (4096, 2)] {
        let a = encoded(&sound(14 * size / 8 * blocks, 2), size as u32, History::default());
        folder.write("a", &a);
        for len in [1, 14, 15, 139, 140, 141, 9000] {
            let b = encoded(&sound(len, 3), size as u32, History { newest: 77, older: -5 });
            folder.write("b", &b);
            let run = folder.done("join a b out");
            assert!(run.err.contains("as they were"));
            let wanted = [played(&a), played(&b)].concat();
            assert_eq!(played(&folder.read("out")), wanted, "{size} {blocks} {len}");
        }
    }
}

#[test]
fn a_clip_that_goes_on_is_as_if_encoded_at_once() {
    let folder = Folder::new();
    let clip = sound(5000, 4);
    for size in [8, 16, 80, 1024, 65_536] {
        for at in [14, 28, 140, 154, 700, 1414, 4998] {
            let a = encoded(&clip[..at], size, History::default());
            let b = encoded(&clip[at..], size, end(&a));
            folder.write("a", &a);
            folder.write("b", &b);
            folder.done("join a b out");
            let whole = encoded(&clip, size, History::default());
            assert_eq!(folder.read("out"), whole, "{size} {at}");
        }
    }
}

#[test]
fn the_way_that_the_help_tells() {
    let folder = Folder::new();
    let clip = sound(3000, 5);
    folder.write("a.raw", crate::support::raw(&clip[..1400]));
    folder.write("b.raw", crate::support::raw(&clip[1400..]));
    folder.done("encode --raw --rate 32000 a.raw a");
    folder.done("encode --raw --rate 32000 --after a b.raw b");
    folder.done("join a b out");
    let info = Value::of_line(&folder.done("info --json a").out);
    let [Value::Number(newest), Value::Number(older)] = info.list("end_history") else { panic!() };
    folder.done(&format!(
        "encode --raw --rate 32000 --coefficients a --history {newest},{older} b.raw by-hand"
    ));
    assert_eq!(folder.read("by-hand"), folder.read("b"));
    let coefficients = Coefficients::measure(&clip[..1400]).unwrap();
    let whole = image_with(&clip, 32_000, 8192, coefficients, History::default());
    assert_eq!(folder.read("out"), whole);
}

#[test]
fn three_parts_in_turn() {
    let folder = Folder::new();
    let clip = sound(4200, 6);
    let a = encoded(&clip[..1400], 80, History::default());
    let b = encoded(&clip[1400..2814], 80, end(&a));
    let c = encoded(&clip[2814..], 80, end(&b));
    folder.write("a", &a);
    folder.write("b", &b);
    folder.write("c", &c);
    folder.done("join b c bc");
    folder.done("join a bc abc");
    folder.done("join --force a b a");
    folder.done("join --force a c a");
    let whole = encoded(&clip, 80, History::default());
    assert_eq!(folder.read("abc"), whole);
    assert_eq!(folder.read("a"), whole);
}

#[test]
fn what_does_not_fit() {
    let folder = Folder::new();
    let a = encoded(&sound(140, 7), 80, History::default());
    let other = image(&sound(140, 8), 32_000, 80);
    folder.write("a", &a);
    folder.write("short", encoded(&sound(139, 7), 80, History::default()));
    folder.write("middle", encoded(&sound(28, 7), 80, History::default()));
    folder.write("sizes", encoded(&sound(140, 7), 160, History::default()));
    folder.write("other", &other);
    folder.write("rate", image_with(&[1; 14], 8000, 80, coefficients(), History::default()));
    let mut gain = a.clone();
    gain[49] = 9;
    folder.write("gain", &gain);
    let run = |line: &str| folder.run(&format!("join {line} out"));
    run("a other").expect(4, "(refusal 18) from those of a; --reencode plays both");
    run("a rate").expect(3, "rate: rate 8,000, and a has 32,000");
    run("--reencode a rate").expect(3, "rate: rate 8,000, and a has 32,000");
    run("a sizes").expect(3, "sizes: blocks of 160 bytes, and those of a have 80; --reencode");
    run("short a").expect(3, "short: 139 samples: its last frame is not full");
    run("middle a").expect(3, "a: its block 0 begins after 0,0 and would come after ");
    run("a gain").expect(3, "its gain is 9, and that of a is 0: choose with --gain");
    run("a a").expect(0, "280 samples at 32,000 Hz (8.8 ms) in 2 blocks of 80 bytes, as they were");
    folder.run("join a gain --gain 5 out").expect(0, "");
    assert_eq!(folder.read("out")[48..50], [0, 5]);
    folder.run("join a a a").expect(2, "a is an input too: --force writes over it");
}

#[test]
fn a_jump_within_the_second_clip() {
    let folder = Folder::new();
    let a = encoded(&sound(140, 7), 80, History::default());
    let middle = encoded(&sound(28, 9), 80, History::default());
    folder.write("a", &a);
    folder.write("middle", &middle);
    folder.write("follows", encoded(&sound(140, 10), 80, end(&middle)));
    // A clip that begins where `middle` ends, and whose block 1 does not go on from its block 0.
    folder.done("join follows a jumps");
    folder.run("join middle jumps out").expect(3, "jumps: its block 1 begins after 0,0 and would");
    folder.done("join --reencode middle jumps out");
}

#[test]
fn encoded_again() {
    let folder = Folder::new();
    let a = image(&sound(139, 1), 32_000, 80);
    let b = image(&sound(1000, 2), 32_000, 160);
    folder.write("a", &a);
    folder.write("b", &b);
    folder.done("join --reencode a b out");
    let clip = [played(&a), played(&b)].concat();
    assert_eq!(folder.read("out"), image(&clip, 32_000, 80));
    folder.done("join --reencode --block-size 4096 --gain 3 a b out");
    let mut wanted = image(&clip, 32_000, 4096);
    wanted[49] = 3;
    assert_eq!(folder.read("out"), wanted);
}
