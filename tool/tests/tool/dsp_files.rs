//! `export` and `import`: the files are the library's, and come back byte for byte.

use crate::damage::names;
use crate::parse::Value;
use crate::support::*;
use doilycairn::{Image, Refusal, from_dsp};

/// The .dsp file that the library makes of an image.
fn dsp(image: &[u8]) -> Vec<u8> {
    Image::open(image).unwrap().to_dsp().unwrap()
}

#[test]
fn the_files_are_the_librarys_and_come_back() {
    let folder = Folder::new();
    for (len, size) in [(1, 8), (14, 8), (15, 8), (1000, 64), (1001, 80), (40_000, 8192)] {
        let clip = sound(len, 7);
        for bytes in [image(&clip, 32_000, size), looped(&clip, size, (0, len as u32))] {
            folder.write("in.dspc", &bytes);
            folder.done("export in.dspc out.dsp");
            assert_eq!(folder.read("out.dsp"), dsp(&bytes), "{len} {size}");
            folder.done(&format!("import --block-size {size} out.dsp back.dspc"));
            assert_eq!(folder.read("back.dspc"), bytes);
            folder.done("import out.dsp other.dspc");
            assert_eq!(folder.read("other.dspc"), from_dsp(&dsp(&bytes), 8192).unwrap());
            folder.done("same --sound in.dspc other.dspc");
            // A file does not know the blocks that it came from.
            folder.done("export other.dspc again.dsp");
            assert_eq!(folder.read("again.dsp"), dsp(&bytes));
        }
    }
}

#[test]
fn through_pipes() {
    let folder = Folder::new();
    let bytes = ramp_image(8, Some((5, 17)));
    let exported = folder.feed("export - -", &bytes);
    assert_eq!((exported.status, &exported.bytes), (0, &dsp(&bytes)));
    let imported = folder.feed("import --block-size 8 - -", &exported.bytes);
    assert_eq!((imported.status, &imported.bytes), (0, &bytes));
}

#[test]
fn what_is_said() {
    let folder = Folder::new();
    folder.write("in.dspc", ramp_image(8, Some((5, 17))));
    let words = "out.dsp: 20 samples at 32,000 Hz (0.6 ms) from blocks of 8 bytes, .dsp file of 108 bytes; loop from sample 5 up to 17\n";
    assert_eq!(folder.done("export in.dspc out.dsp").err, words);
    let words = "out.dspc: 20 samples at 32,000 Hz (0.6 ms) in 1 block of 8,192 bytes, image of 100 bytes; loop from sample 5 up to 17\n";
    assert_eq!(folder.done("import out.dsp out.dspc").err, words);
    folder.write("more.dsp", [folder.read("out.dsp"), vec![9; 3]].concat());
    let run = folder.done("import --block-size 15 more.dsp out.dspc");
    assert!(run.err.ends_with(" up to 17; 3 bytes after the last frame left out\n"), "{}", run.err);
    assert_eq!(folder.read("out.dspc"), ramp_image(8, Some((5, 17))));
    assert_eq!(folder.done("export -q in.dspc out.dsp").err, "");
    assert_eq!(folder.done("import -q out.dsp out.dspc").err, "");
}

#[test]
fn json() {
    let folder = Folder::new();
    folder.write("in.dspc", ramp_image(8, Some((5, 17))));
    let json = Value::of_line(&folder.done("export --json in.dspc out.dsp").out);
    let numbers = ["samples", "rate", "block_size", "bytes", "gain"].map(|name| json.number(name));
    assert_eq!(numbers, [20.0, 32_000.0, 8.0, 108.0, 7.0]);
    assert_eq!((json.text("input"), json.text("output")), ("in.dspc", "out.dsp"));
    assert_eq!(json.get("loop").number("end"), 17.0);
    folder.write("more.dsp", [folder.read("out.dsp"), vec![9; 3]].concat());
    let line = "import --json --block-size 8 more.dsp out.dspc";
    let json = Value::of_line(&folder.done(line).out);
    let numbers = ["samples", "block_size", "blocks", "bytes", "bytes_after", "gain"];
    assert_eq!(numbers.map(|name| json.number(name)), [20.0, 8.0, 2.0, 116.0, 3.0, 7.0]);
    assert_eq!(json.get("loop").number("start"), 5.0);
    assert!(json.list("mended").is_empty() && json.list("notes").is_empty());
}

#[test]
fn many_files() {
    let folder = Folder::new();
    for (name, seed) in [("a.dspc", 1), ("b.dspc", 2)] {
        folder.write(name, image(&sound(5000, seed), 32_000, 8192));
    }
    folder.write("c.dspc", "x");
    let run = folder.run("export --into out a.dspc c.dspc b.dspc");
    run.expect(4, "3 files: 2 done, 1 failed");
    folder.done("import --into back out/a.dsp out/b.dsp");
    for name in ["a.dspc", "b.dspc"] {
        assert_eq!(folder.read(&format!("back/{name}")), folder.read(name));
    }
    folder.done("decode --into wavs out/a.dsp out/b.dsp");
    assert_eq!(folder.read("wavs/b.wav"), folder.done("decode b.dspc -").bytes);
}

/// Where a block does not go on from the one before it, it is named.
#[test]
fn a_block_that_does_not_go_on() {
    let folder = Folder::new();
    let mut bytes = ramp_image(8, None);
    bytes[82..86].copy_from_slice(&[0, 0, 0xff, 0xff]);
    folder.write("bad.dspc", &bytes);
    folder.write("out.dsp", "old");
    let words = "bad.dspc: block 1: it does not begin from what the block before it leaves, which a .dsp file cannot hold (refusal 35); \
                 at sample 14 it begins after 0,-1 and not 1078,1072\n";
    folder.run("export bad.dspc out.dsp").expect(4, words);
    assert_eq!(folder.read("out.dsp"), b"old");
    let json = Value::of_line(&folder.run("export --json bad.dspc out.dsp").out);
    names(json.get("error"), Refusal::OtherHistory { block: 1 });
    // So do joined clips that do not follow each other.
    folder.write("a", image(&sound(280, 1), 32_000, 80));
    folder.write("b", image(&sound(280, 1), 32_000, 80));
    folder.done("join a b ab");
    folder.run("export ab x").expect(4, "ab: block 2: it does not begin");
    assert!(!folder.has("x"));
    folder.write("in.wav", wav(&sound(280, 2), 32_000));
    folder.done("encode --after a in.wav after");
    folder.done("join a after ab");
    folder.done("export ab ab.dsp");
}

#[test]
fn damaged_images_are_not_exported() {
    let folder = Folder::new();
    let good = ramp_image(8, Some((5, 17)));
    let altered = |at: usize, bytes: &[u8]| {
        let mut image = good.clone();
        image[at..at + bytes.len()].copy_from_slice(bytes);
        image
    };
    for (bytes, refusal) in [
        (good[..70].to_vec(), Refusal::BadHead),
        (altered(75, &[1]), Refusal::BadOffset { block: 1 }),
        (altered(63, &[1]), Refusal::BadLength { block: 0 }),
        (altered(81, &[1]), Refusal::BadHeader { block: 1 }),
        (altered(103, &[1]), Refusal::BadLoop),
        (altered(16, &[0x80, 0, 0x80, 0]), Refusal::LowestPair),
    ] {
        folder.write("bad", bytes);
        folder.run("export bad x").expect(4, &format!("bad: {refusal}"));
        assert!(!folder.has("x"));
    }
}
