//! What a WAV file has that a clip does not keep.

use crate::parse::Value;
use crate::support::{Folder, chunk, format, image, raw, riff, sampler, sound};

/// A smpl chunk with so many loops from sample 100 to 900.
fn loops(count: usize) -> Vec<u8> {
    sampler(&vec![(0, 100, 900); count])
}

/// The standard error of encoding a file of these chunks.
fn told(chunks: &[Vec<u8>]) -> String {
    let folder = Folder::new();
    folder.write("in.wav", riff(chunks));
    let run = folder.done("encode in.wav out");
    assert_eq!(folder.read("out"), image(&sound(1000, 1), 32_000, 8192));
    run.err
}

fn parts() -> [Vec<u8>; 2] {
    [chunk(b"fmt ", &format(1, 1, 32_000, 16)), chunk(b"data", &raw(&sound(1000, 1)))]
}

#[test]
fn loops_are_told_wherever_they_stand() {
    let [form, data] = parts();
    let words = "note: in.wav: its loop, from sample 100 to 900 (smpl chunk), is left out: --wav-loop takes it\n";
    assert!(told(&[form.clone(), loops(1), data.clone()]).contains(words));
    let list = chunk(b"LIST", &[1; 7]);
    let after = told(&[form.clone(), data.clone(), list, loops(1)]);
    assert!(after.contains(words), "{after}");
    assert!(
        told(&[form.clone(), data.clone(), loops(3)])
            .contains("its 3 loops are left out (smpl chunk): --wav-loop takes the first that is played forwards\n")
    );
    let back = told(&[form.clone(), data.clone(), sampler(&[(2, 100, 900)])]);
    assert!(back.contains("note: in.wav: its 1 loop is left out (smpl chunk)\n"), "{back}");
    for none in [loops(0), chunk(b"smpl", &[1; 9]), chunk(b"LIST", &[1; 5])] {
        assert!(!told(&[form.clone(), data.clone(), none]).contains("note"));
    }
}

#[test]
fn a_second_data_chunk_is_told() {
    let [form, data] = parts();
    let words = "a second data chunk, of 10 bytes, is left out";
    assert!(told(&[form.clone(), data.clone(), chunk(b"data", &[9; 10])]).contains(words));
    let folder = Folder::new();
    folder.write("in.wav", riff(&[form, data, loops(1)]));
    let json = Value::of_line(&folder.done("encode --json in.wav out").out);
    assert_eq!(json.list("notes").len(), 1);
}
