//! Files that may not be meant to be replaced, and names that promise another format.

use crate::parse::Value;
use crate::support::{Folder, image, sound, wav};
use doilycairn::Image;

fn folder() -> Folder {
    let folder = Folder::new();
    folder.write("a.wav", wav(&sound(1000, 1), 32_000));
    folder.write("b.wav", wav(&sound(1000, 2), 32_000));
    folder.write("a.dspc", image(&sound(1000, 1), 32_000, 80));
    folder
}

#[test]
fn recordings_are_not_written_over() {
    let folder = folder();
    let before = folder.read("b.wav");
    // As `encode *.wav` is with two files.
    for line in [
        "encode a.wav b.wav",
        "join a.dspc a.dspc b.wav",
        "trim a.dspc b.wav",
        "decode a.dspc b.wav",
        "info --svg b.wav a.dspc",
        "export a.dspc b.wav",
    ] {
        folder.run(line).expect(2, "b.wav is a recording (a WAV file): --force writes over it");
        assert_eq!(folder.read("b.wav"), before, "{line}");
    }
    folder.run("encode a.wav b.wav").expect(2, "writes over it, --into FOLDER encodes many files");
    folder.done("encode --force a.wav b.wav");
    assert_eq!(folder.read("b.wav"), image(&sound(1000, 1), 32_000, 8192));
}

#[test]
fn images_are_written_over_by_images_alone() {
    let folder = folder();
    folder.write("b.dspc", image(&sound(10, 2), 32_000, 80));
    for line in [
        "decode a.dspc b.dspc",
        "decode --raw a.dspc b.dspc",
        "info --svg b.dspc a.dspc",
        "export a.dspc b.dspc",
    ] {
        folder.run(line).expect(2, "b.dspc is a clip image: --force writes over it");
    }
    folder.done("encode a.wav b.dspc");
    folder.done("decode --force a.dspc b.dspc");
    assert!(folder.read("b.dspc").starts_with(b"RIFF"));
    folder.write("text", "old");
    folder.done("decode a.dspc text");
    folder.done("encode a.wav empty");
}

#[test]
fn dsp_files_are_written_over_by_dsp_files_alone() {
    let folder = folder();
    let file = Image::open(&folder.read("a.dspc")).unwrap().to_dsp().unwrap();
    // Whatever its name is.
    for name in ["b.dsp", "b"] {
        folder.write(name, &file);
        for line in ["encode a.wav", "decode a.dspc", "trim a.dspc", "import b.dsp"] {
            let line = format!("{line} {name}");
            let is_input = line == "import b.dsp b.dsp";
            let kind = if is_input { "an input too" } else { "a .dsp file" };
            folder.run(&line).expect(2, &format!("{name} is {kind}: --force writes over it"));
            assert_eq!(folder.read(name), file, "{line}");
        }
        folder.done(&format!("export a.dspc {name}"));
        folder.done(&format!("encode --force a.wav {name}"));
        assert!(folder.read(name).starts_with(b"DSPC"));
        folder.run(&format!("export a.dspc {name}")).expect(2, "is a clip image: --force");
        folder.done(&format!("export --force a.dspc {name}"));
        assert_eq!(folder.read(name), file);
    }
}

#[test]
fn a_name_that_promises_a_dsp_file() {
    let folder = folder();
    let words = "note: x.dsp: this is a clip image and no .dsp file: `export` writes one";
    folder.run("encode a.wav x.dsp").expect(0, words);
    folder.run("trim a.dspc x.dsp").expect(0, words);
    folder.run("decode a.dspc y.DSP").expect(0, "note: y.DSP: this is a recording and no .dsp");
    let json = Value::of_line(&folder.done("encode --json a.wav x.dsp").out);
    assert_eq!(json.list("notes").len(), 1);
    assert_eq!(folder.done("encode -q a.wav x.dsp").err, "");
    assert!(!folder.done("export a.dspc z.dsp").err.contains("note"));
    // An image by another name is one.
    for line in ["check x.dsp", "decode x.dsp x.wav", "info x.dsp", "export x.dsp y.dsp"] {
        folder.done(line);
    }
}
