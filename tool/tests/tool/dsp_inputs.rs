//! .dsp files as inputs: `decode` and `info` take them, by name or by contents; the others say what to do.

use crate::parse::Value;
use crate::support::*;
use doilycairn::Image;

/// A folder with an image and its .dsp file, under names that tell and under one that does not.
fn folder(bytes: &[u8]) -> Folder {
    let folder = Folder::new();
    let dsp = Image::open(bytes).unwrap().to_dsp().unwrap();
    folder.write("in.dspc", bytes);
    for name in ["in.dsp", "in.DSP", "file"] {
        folder.write(name, &dsp);
    }
    folder
}

#[test]
fn decoded_as_its_image() {
    for bytes in [
        image(&sound(1000, 1), 32_000, 64),
        image(&sound(40_000, 2), 44_100, 8192),
        ramp_image(8, None),
    ] {
        let folder = folder(&bytes);
        let wanted = folder.done("decode in.dspc -").bytes;
        for name in ["in.dsp", "in.DSP", "file"] {
            assert_eq!(folder.done(&format!("decode {name} -")).bytes, wanted);
        }
        let piped = folder.feed("decode - -", &folder.read("file"));
        assert_eq!((piped.status, piped.bytes), (0, wanted));
    }
}

#[test]
fn parts_and_turns_of_it() {
    let folder = folder(&looped(&sound(1000, 1), 64, (100, 900)));
    for options in ["--from 400 --count 200", "--loop 3 --lead-in", "--count 0", "--raw"] {
        let [wanted, got] =
            ["in.dspc", "in.dsp"].map(|name| folder.done(&format!("decode {options} {name} -")));
        assert_eq!(wanted.bytes, got.bytes, "{options}");
    }
    folder.run("decode --from 1000 in.dsp x").expect(4, "in.dsp: the first sample is not in the");
    // It has the blocks that import makes: one of 8,192 bytes.
    let all = folder.done("decode in.dsp -").bytes;
    assert_eq!(folder.done("decode --block 0 in.dsp -").bytes, all);
    folder.run("decode --block 1 in.dsp x").expect(2, "in.dsp has 1 block");
}

#[test]
fn decode_tells_what_it_read() {
    let folder = folder(&ramp_image(8, None));
    for (name, format) in [("in.dspc", "dspc"), ("in.dsp", "dsp"), ("file", "dsp")] {
        let json = Value::of_line(&folder.done(&format!("decode --json {name} {name}.wav")).out);
        assert_eq!((json.text("format"), json.list("mended")), (format, &[][..]));
    }
}

/// What `info --json` says of a file.
fn info(folder: &Folder, name: &str) -> Value {
    Value::of_line(&folder.done(&format!("info --json --blocks {name}")).out)
}

#[test]
fn info_of_a_file_is_that_of_its_image() {
    let folder = folder(&looped(&sound(1000, 1), 8192, (100, 900)));
    folder.write("more.dsp", [folder.read("in.dsp"), vec![9; 7]].concat());
    let (image, dsp) = (info(&folder, "in.dspc"), info(&folder, "in.dsp"));
    for name in [
        "samples",
        "rate",
        "seconds",
        "block_size",
        "blocks",
        "frames",
        "gain",
        "loop",
        "history",
        "end_history",
        "coefficients",
        "frames_by_predictor",
        "frames_by_exponent",
        "clicks",
    ] {
        assert_eq!(image.get(name), dsp.get(name), "{name}");
    }
    assert_eq!((image.text("format"), dsp.text("format")), ("dspc", "dsp"));
    assert_eq!((dsp.number("bytes"), dsp.number("bytes_after")), (668.0, 0.0));
    assert_eq!(info(&folder, "more.dsp").number("bytes_after"), 7.0);
    // Where in the file the bodies stand.
    assert_eq!(dsp.list("contexts")[0].number("offset"), 96.0);
}

#[test]
fn info_in_words() {
    let folder = folder(&ramp_image(8, Some((5, 17))));
    folder.write("more.dsp", [folder.read("in.dsp"), vec![9; 7]].concat());
    let out = folder.done("info in.dsp").out;
    for words in [
        "\n  blocks     1 of up to 8,192 bytes, as `import` makes them\n",
        "\n  .dsp file  108 bytes, 0.37 to 1\n",
        "\n  loop       from sample 5 (0.2 ms) up to 17",
        "\n  gain       7\n",
    ] {
        assert!(out.contains(words), "{words}: {out}");
    }
    assert!(!out.contains("after it"));
    let more = folder.done("info more.dsp").out;
    assert!(more.contains("\n  after it   7 bytes that do not belong to it\n"), "{more}");
    folder.done("info --svg out.svg in.dsp");
    assert!(String::from_utf8(folder.read("out.svg")).unwrap().contains("<svg"));
    folder.write("ramp.wav", wav(&ramp(), 32_000));
    folder.done("info --against ramp.wav in.dsp");
}

#[test]
fn commands_that_take_images_alone_say_what_to_do() {
    let folder = folder(&ramp_image(8, None));
    let words = "; a .dsp file is no image: `import` makes one of it\n";
    folder.write("in.wav", wav(&ramp(), 32_000));
    for name in ["in.dsp", "file"] {
        for line in [
            format!("export {name} x"),
            format!("trim {name} x"),
            format!("same {name} in.dspc"),
            format!("join in.dspc {name} x"),
            format!("encode --after {name} in.wav x"),
        ] {
            let run = folder.run(&line);
            run.expect(4, "(refusal 15)");
            assert!(run.err.ends_with(words), "{}", run.err);
        }
        let run = folder.run(&format!("check {name}"));
        assert_eq!(run.status, 1);
        assert!(run.out.contains("\n  a .dsp file is no image: `import` makes one"), "{}", run.out);
    }
    assert!(!folder.has("x"));
}

#[test]
fn what_is_no_dsp_file_is_told() {
    let folder = folder(&ramp_image(8, None));
    folder.write("in.wav", wav(&ramp(), 32_000));
    folder.run("import in.dspc x").expect(4, "; it begins with DSPC: it is an image already\n");
    folder.run("import in.wav x").expect(4, "it is a WAV file, which `encode` reads\n");
    // By its name alone a file is one, and refused as such.
    folder.write("game.dsp", [0; 200]);
    folder.run("decode game.dsp x").expect(4, "samples (refusal 4); it has 0\n");
    folder.run("info game.dsp").expect(4, "(refusal 4)");
    folder.write("game", [0; 200]);
    folder.run("decode game x").expect(4, "(refusal 15)");
    assert!(!folder.has("x"));
}
