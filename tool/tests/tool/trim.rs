//! `trim`.

use crate::parse::Value;
use crate::support::{Folder, image, image_with, sound, wav};
use doilycairn::{Coefficients, History, Image};

fn played(bytes: &[u8]) -> Vec<i16> {
    Image::open(bytes).unwrap().play().unwrap()
}

/// The frames of an image, back to back.
fn frames(bytes: &[u8]) -> Vec<u8> {
    Image::open(bytes).unwrap().blocks().flat_map(|block| block.bytes.to_vec()).collect()
}

#[test]
fn every_frame_stays_from_the_beginning_of_one() {
    let folder = Folder::new();
    for size in [8, 80, 1024, 65_536] {
        let bytes = image(&sound(3001, 1), 32_000, size);
        folder.write("in", &bytes);
        for from in [0, 14, 140, 154, 1400, 2996] {
            for to in [from + 1, from + 13, from + 14, from + 15, 2999, 3001]
                .map(|to: usize| to.min(3001))
            {
                let run = folder.done(&format!("trim --from {from} --to {to} in out"));
                assert!(
                    run.err.contains("as they were") && !run.err.contains("note"),
                    "{}",
                    run.err
                );
                let out = folder.read("out");
                assert_eq!(played(&out), played(&bytes)[from..to], "{size} {from} {to}");
                let full = (to - from) / 14;
                assert_eq!(frames(&out)[..8 * full], frames(&bytes)[from / 14 * 8..][..8 * full]);
                assert!(folder.done("check --strict out").out.contains("opens and plays"));
            }
        }
    }
}

/// Starting with the history there, and feeding what is left, is the same, as docs/EDITOR.md says.
#[test]
fn it_is_what_encoding_with_the_history_gives() {
    let folder = Folder::new();
    let clip = sound(2800, 2);
    let coefficients = Coefficients::measure(&clip).unwrap();
    let bytes = image(&clip, 32_000, 80);
    folder.write("in", &bytes);
    for (from, to) in [(0, 1400), (14, 2800), (980, 1960), (1022, 1036)] {
        folder.done(&format!("trim --from {from} --to {to} in out"));
        let samples = played(&bytes);
        let history = match from {
            0 => History::default(),
            _ => History { newest: samples[from - 1], older: samples[from - 2] },
        };
        let wanted = image_with(&clip[from..to], 32_000, 80, coefficients, history);
        assert_eq!(folder.read("out"), wanted, "{from} {to}");
    }
}

#[test]
fn halves_joined_are_the_whole() {
    let folder = Folder::new();
    let bytes = image(&sound(3001, 6), 32_000, 80);
    folder.write("in", &bytes);
    for at in [14, 140, 154, 2996] {
        folder.done(&format!("trim --to {at} in a"));
        folder.done(&format!("trim --from {at} in b"));
        folder.done("join a b out");
        assert_eq!(folder.read("out"), bytes, "{at}");
    }
}

#[test]
fn elsewhere_it_is_encoded_again() {
    let folder = Folder::new();
    let clip = sound(1000, 3);
    let coefficients = Coefficients::measure(&clip).unwrap();
    let bytes = image(&clip, 32_000, 80);
    folder.write("in", &bytes);
    folder.write("in.wav", wav(&clip, 32_000));
    let samples = played(&bytes);
    for from in [1, 2, 100, 999] {
        let older = if from == 1 { 0 } else { samples[from - 2] };
        let history = History { newest: samples[from - 1], older };
        let run = folder.done(&format!("trim --from {from} in out"));
        assert!(run.err.contains("encoded again from what in plays"), "{}", run.err);
        let again = image_with(&samples[from..], 32_000, 80, coefficients, history);
        assert_eq!(folder.read("out"), again);
        let run = folder.done(&format!("trim --from {from} --recording in.wav in out"));
        assert!(run.err.contains("encoded again from the recording"), "{}", run.err);
        let first = image_with(&clip[from..], 32_000, 80, coefficients, history);
        assert_eq!(folder.read("out"), first);
    }
    let run = folder.done("trim --from 100 --to 900 in out");
    assert!(run.err.contains("note: sample 100 does not begin a frame (--from 98 or 112 does)"));
}

#[test]
fn a_click_stays_at_its_edge_or_all_is_encoded_again() {
    let folder = Folder::new();
    let mut bytes = image(&sound(1400, 4), 32_000, 80);
    bytes[56 + 16 * 3 + 10] ^= 0x10;
    folder.write("in", &bytes);
    let cases = [
        (140, 1400, true),
        (420, 1400, true),
        (434, 1400, false),
        (14, 420, true),
        (14, 421, false),
    ];
    for (from, to, kept) in cases {
        let run = folder.done(&format!("trim --from {from} --to {to} in out"));
        assert_eq!(run.err.contains("as they were"), kept, "{from}: {}", run.err);
        if kept {
            assert_eq!(played(&folder.read("out")), played(&bytes)[from..to]);
        }
    }
}

#[test]
fn times_and_what_is_wrong() {
    let folder = Folder::new();
    folder.write("in", image(&sound(2800, 5), 1400, 80));
    folder.write("short.wav", wav(&sound(10, 5), 1400));
    folder.write("other.wav", wav(&[9000; 2800], 1400));
    let json = Value::of_line(&folder.done("trim --json --from 0.5s --to 0:01.5 in out").out);
    assert_eq!((json.number("from"), json.number("to")), (700.0, 2100.0));
    assert_eq!((json.number("frames_kept"), json.number("frames_encoded")), (100.0, 0.0));
    folder.run("trim --to 2801 in out").expect(2, "--to is sample 2,801: in has 2,800 samples");
    folder
        .run("trim --from 2800 in out")
        .expect(2, "--from is sample 2,800 and --to is 2,800: none stays");
    folder.run("trim --from 9 --to 9 in out").expect(2, "none stays of 2,800 samples");
    folder.run("trim --from x in out").expect(2, "--from: 'x' is no sample's number and no time");
    folder
        .run("trim --from 1 --recording short.wav in out")
        .expect(3, "10 samples, and the image has");
    let run = folder.done("trim --from 1 --recording other.wav in out");
    assert!(run.err.contains("the image was not encoded from it"), "{}", run.err);
    let run = folder.done("trim --from 14 --recording other.wav in out");
    assert!(run.err.contains("nothing is encoded again: --recording is not needed"));
    folder.run("trim in in").expect(2, "in is an input too");
}
