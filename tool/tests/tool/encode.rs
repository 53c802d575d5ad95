//! `encode`.

use crate::parse::Value;
use crate::support::{Folder, image, image_with, raw, sound, wav};
use doilycairn::{Coefficients, History};

#[test]
fn the_image_is_the_librarys() {
    let folder = Folder::new();
    for len in [1, 2, 13, 14, 15, 28, 1000, 14_336, 14_337, 40_000] {
        let clip = sound(len, len as u64);
        folder.write("in.wav", wav(&clip, 32_000));
        folder.done("encode in.wav out.dspc");
        assert_eq!(folder.read("out.dspc"), image(&clip, 32_000, 8192), "{len}");
        for size in [8, 15, 64, 4096, 65_536] {
            folder.done(&format!("encode --block-size {size} in.wav out.dspc"));
            assert_eq!(folder.read("out.dspc"), image(&clip, 32_000, size), "{len} {size}");
        }
    }
}

#[test]
fn options_reach_the_image() {
    let folder = Folder::new();
    let clip = sound(1000, 1);
    folder.write("in.wav", wav(&clip, 44_100));
    folder.done("encode in.wav --gain 0xABCD out.dspc --history -5,32767 --block-size=80");
    let history = History { newest: -5, older: 32_767 };
    let coefficients = Coefficients::measure(&clip).unwrap();
    let mut wanted = image_with(&clip, 44_100, 80, coefficients, history);
    wanted[48..50].copy_from_slice(&[0xab, 0xcd]);
    assert_eq!(folder.read("out.dspc"), wanted);
    let head = &wanted[8..12];
    assert_eq!(head, 44_100u32.to_be_bytes());
}

#[test]
fn after_another_clip() {
    let folder = Folder::new();
    let clip = sound(1000, 5);
    folder.write("in.wav", wav(&clip, 32_000));
    folder.write("slow.wav", wav(&clip, 8000));
    folder.done("encode --gain 7 --block-size 80 in.wav a");
    folder.done("encode --after a in.wav b");
    let [a, b] = [folder.read("a"), folder.read("b")];
    assert_eq!(a[..56], b[..56]);
    let played = doilycairn::Image::open(&a).unwrap().play().unwrap();
    let last = [played[999].to_be_bytes(), played[998].to_be_bytes()].concat();
    assert_eq!(b[66..70], last);
    folder.done("encode --after a --gain 8 --block-size 160 in.wav c");
    assert_eq!((folder.read("c")[15], folder.read("c")[49]), (160, 8));
    folder.run("encode --after a slow.wav x").expect(3, "rate 8,000, and the clip before it has");
    folder.run("encode --after a --history 1,2 in.wav x").expect(2, "--after says what --history");
    folder.run("encode --after a --coefficients a in.wav x").expect(2, "give one of the two");
    folder.run("encode --after in.wav in.wav x").expect(4, "(refusal 15)");
    folder.run("encode --after a in.wav a").expect(2, "a is an input too");
    assert!(!folder.has("x"));
}

#[test]
fn headerless_samples_and_pipes() {
    let folder = Folder::new();
    let clip = sound(5000, 2);
    let wanted = image(&clip, 22_050, 8192);
    folder.write("in.raw", raw(&clip));
    folder.done("encode --raw --rate 22050 in.raw out.dspc");
    assert_eq!(folder.read("out.dspc"), wanted);
    let piped = folder.feed("encode - -", &wav(&clip, 22_050));
    assert_eq!((piped.status, &piped.bytes), (0, &wanted));
    assert!(
        piped.err.starts_with("standard output: 5,000 samples at 22,050 Hz (226.8 ms) in 1 block"),
        "{}",
        piped.err
    );
    let piped = folder.feed("encode -q --raw --rate 22050 - -", &raw(&clip));
    assert_eq!((piped.status, &piped.bytes, &piped.err[..]), (0, &wanted, ""));
    folder.feed("encode --raw --rate 1 - x", &raw(&clip)[1..]).expect(3, "middle of one");
    let cut = folder.feed("encode --raw --rate 22050 --ignore-length - x", &raw(&clip)[..9999]);
    assert_eq!(cut.status, 0, "{}", cut.err);
    assert_eq!(folder.read("x"), image(&clip[..4999], 22_050, 8192));
}

#[test]
fn verify_tells_the_largest_distance() {
    let folder = Folder::new();
    folder.write("in.wav", wav(&sound(20_000, 3), 32_000));
    let run = folder.done("encode --verify in.wav out.dspc");
    assert!(run.err.contains("verified: the largest distance is "), "{}", run.err);
    let json = Value::of_line(&folder.done("encode --verify --json in.wav out.dspc").out);
    assert_eq!(json.get("verify").number("beyond_bound"), 0.0);
    let largest = json.get("verify").number("largest");
    let info = Value::of_line(&folder.done("info --against in.wav --json out.dspc").out);
    assert_eq!(info.get("against").number("largest"), largest);
    assert_eq!(info.get("against"), json.get("verify"));
}

#[test]
fn refusals_have_their_numbers() {
    let folder = Folder::new();
    folder.write("in.wav", wav(&sound(100, 4), 32_000));
    folder.write("none.wav", wav(&[], 32_000));
    folder.write("still.wav", wav(&[1], 0));
    folder.write("wide", "1 2 32767 -28674 0 0 0 0 0 0 0 0 0 0 0 0");
    let cases = [
        ("encode none.wav out", "(refusal 4); it has 0"),
        ("encode still.wav out", "the sample rate is 0 (refusal 5)"),
        (
            "encode --coefficients wide in.wav out",
            "wide: a pair of coefficients has |c0| + |c1| above 61,440 (refusal 7); pair 1 of 0 to 7 is 32,767 and -28,674, which makes 61,441",
        ),
    ];
    for (line, words) in cases {
        folder.run(line).expect(4, words);
        assert!(!folder.has("out"));
    }
}
