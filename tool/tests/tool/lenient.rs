//! `--lenient`: the fields that carry no sound are mended and told, and no other.

use crate::dsp_fields::{file, refused, with};
use crate::parse::Value;
use crate::support::{Folder, ramp_image};

/// The fields that are mended, as they may stand in a file without a loop, and what is said of each.
const OF_NO_LOOP: [(usize, &[u8], &str); 5] = [
    (16, &[0, 0, 0, 2], "byte 16: the loop start address was 2 and is 0 now"),
    (20, &[0, 0, 0, 23], "byte 20: the address of the loop's last sample was 23 and is 0 now"),
    (68, &[0, 7], "byte 68: the loop header was 00 07 and is 00 00 now"),
    (70, &[0xff, 0xff], "byte 70: the newest sample before the loop was -1 and is 0 now"),
    (72, &[4, 0], "byte 72: the older sample before the loop was 1,024 and is 0 now"),
];

/// The same in any file.
const OF_ANY: [(usize, &[u8], &str); 4] = [
    (24, &[0, 0, 0, 0], "byte 24: the start address was 0 and is 2 now"),
    (74, &[0, 1], "byte 74: the channel count was 1 and is 0 now"),
    (
        76,
        &[0, 8],
        "byte 76: the rest of the header was 00 08 00 00 00 00 00 00 00 00 00 00 00 00 00 00 00 00 00 00 and is zeros now",
    ),
    (
        95,
        &[0xff],
        "byte 76: the rest of the header was 00 00 00 00 00 00 00 00 00 00 00 00 00 00 00 00 00 00 00 ff and is zeros now",
    ),
];

/// Expects a file to be taken with --lenient alone, with these notes, as the image.
#[track_caller]
fn mended(folder: &Folder, bytes: &[u8], notes: &[&str], image: &[u8]) {
    folder.write("in.dsp", bytes);
    folder.run("import in.dsp x").expect(4, "; `import --lenient` would take it\n");
    folder.run("decode in.dsp x").expect(4, "; `decode --lenient` would take it\n");
    folder.run("info in.dsp").expect(4, "; `info --lenient` would take it\n");
    let said: String =
        notes.iter().map(|note| format!("doilycairn: note: in.dsp: {note}\n")).collect();
    let run = folder.done("import --lenient --block-size 8 in.dsp out.dspc");
    assert!(run.err.starts_with(&said), "{}", run.err);
    assert_eq!(run.err.lines().count(), notes.len() + 1);
    assert_eq!(folder.read("out.dspc"), image);
    // The file is left as it was, and decoded and shown as it was mended.
    assert_eq!(folder.read("in.dsp"), bytes);
    let decoded = folder.done("decode --lenient in.dsp -");
    assert!(decoded.err.starts_with(&said));
    assert_eq!(decoded.bytes, folder.done("decode out.dspc -").bytes);
    assert_eq!(folder.done("info --lenient in.dsp").err, said);
    assert_eq!(folder.done("info --lenient -q in.dsp").err, "");
    assert!(!folder.has("x"));
}

#[test]
fn each_field_is_mended_and_told() {
    let folder = Folder::new();
    for (at, bytes, note) in OF_NO_LOOP.into_iter().chain(OF_ANY) {
        mended(&folder, &with(&file(None), at, bytes), &[note], &ramp_image(8, None));
    }
    for (at, bytes, note) in OF_ANY {
        let points = Some((5, 17));
        mended(&folder, &with(&file(points), at, bytes), &[note], &ramp_image(8, points));
    }
}

#[test]
fn all_of_them_at_once() {
    let folder = Folder::new();
    let mut bytes = file(None);
    let fields: Vec<_> =
        OF_NO_LOOP.into_iter().chain(OF_ANY).filter(|(at, ..)| *at != 95).collect();
    for (at, field, _) in &fields {
        bytes = with(&bytes, *at, field);
    }
    // In the order of their bytes.
    let notes = [0, 1, 5, 2, 3, 4, 6, 7].map(|i: usize| fields[i].2);
    mended(&folder, &bytes, &notes, &ramp_image(8, None));
}

#[test]
fn json_has_each() {
    let folder = Folder::new();
    let bytes = with(&with(&file(None), 24, &[0; 4]), 20, &[0, 0, 1, 2]);
    folder.write("in.dsp", bytes);
    for line in ["import --json --lenient in.dsp out", "info --json --lenient in.dsp"] {
        let json = Value::of_line(&folder.done(line).out);
        let [loop_last, start] = json.list("mended") else { panic!("{json:?}") };
        assert_eq!((loop_last.number("byte"), start.number("byte")), (20.0, 24.0));
        assert_eq!((loop_last.text("was"), loop_last.text("is")), ("00000102", "00000000"));
        assert_eq!((start.text("was"), start.text("is")), ("00000000", "00000002"));
        assert_eq!(json.list("notes").len(), 2);
    }
}

/// What carries sound is refused with --lenient as without, and nothing is said of what would have been mended.
#[test]
fn what_carries_sound_is_not_mended() {
    let folder = Folder::new();
    let cases: [(bool, usize, &[u8]); 15] = [
        (false, 4, &[0, 0, 0, 25]),
        (false, 12, &[0, 2]),
        (false, 14, &[0, 1]),
        (false, 24, &[0, 0, 0, 18]),
        (false, 62, &[0, 1]),
        (false, 74, &[0, 2]),
        (false, 74, &[1, 0, 0, 0, 0, 1]),
        (true, 16, &[0, 0, 0, 0]),
        (true, 16, &[0, 0, 0, 24]),
        (true, 20, &[0, 0, 0, 6]),
        (true, 20, &[0, 0, 0, 0]),
        (true, 68, &[0, 1]),
        (true, 12, &[1, 0]),
        (true, 24, &[0, 0, 0, 1]),
        (false, 12, &[0, 1]),
    ];
    for (is_looped, at, bytes) in cases {
        let bad = with(&file(is_looped.then_some((5, 17))), at, bytes);
        folder.write("in.dsp", &bad);
        let strict = folder.run("import in.dsp x");
        strict.expect(4, "(refusal 26); byte ");
        assert!(!strict.err.contains("--lenient"), "{}", strict.err);
        assert_eq!(folder.run("import --lenient in.dsp x").err, strict.err);
        // With a field beside it that would be mended: still refused, and what is left is named.
        folder.write("in.dsp", with(&bad, 95, &[1]));
        let both = folder.run("import in.dsp x");
        assert!(both.status == 4 && !both.err.contains("--lenient"), "{}", both.err);
        let lenient = folder.run("import --lenient in.dsp x");
        match at {
            74 => assert_eq!(lenient.err, both.err),
            _ => assert_eq!(lenient.err, strict.err),
        }
    }
    assert!(!folder.has("x"));
}

/// Where two channels or more are said, nothing of bytes 74 to 95 is mended.
#[test]
fn several_channels() {
    let folder = Folder::new();
    let bytes = with(&file(None), 74, &[0, 2, 0, 8]);
    let words = "; byte 74: the channel count is 2 and not 0: bodies of several channels are interleaved; nor is byte 76";
    refused(&folder, &bytes, words);
    folder.write("in.dsp", &bytes);
    folder.run("import --lenient in.dsp x").expect(4, &format!("(refusal 26){words}\n"));
}

/// Other refusals are not altered by it, and a mended file that is refused by another is not said to be taken.
#[test]
fn other_refusals_stay() {
    let folder = Folder::new();
    let other = with(&file(None), 24, &[0; 4]);
    let lowest = with(&other, 28, &[0x80, 0, 0x80, 0]);
    for (bytes, strict, lenient) in [
        (&other[..107], "(refusal 25)", "(refusal 25)"),
        (&with(&other, 0, &[0; 4]), "(refusal 4)", "(refusal 4)"),
        (&with(&other, 8, &[0; 4]), "(refusal 5)", "(refusal 5)"),
        (&lowest, "(refusal 26); byte 24: the start address is 0 and not 2\n", "(refusal 13)"),
    ] {
        folder.write("in.dsp", bytes);
        folder.run("import in.dsp x").expect(4, strict);
        let run = folder.run("import --lenient in.dsp x");
        run.expect(4, lenient);
        assert!(!run.err.contains("note"), "{}", run.err);
    }
}

#[test]
fn nothing_to_mend_is_nothing_said() {
    let folder = Folder::new();
    for points in [None, Some((5, 17))] {
        folder.write("in.dsp", file(points));
        let [strict, lenient] = ["", "--lenient"]
            .map(|option| folder.done(&format!("import {option} in.dsp out.dspc")));
        assert_eq!(strict.err, lenient.err);
        folder.write("in.dspc", ramp_image(8, points));
        let [strict, lenient] =
            ["", "--lenient"].map(|option| folder.done(&format!("info {option} in.dspc")));
        assert_eq!((strict.out, strict.err), (lenient.out, lenient.err));
    }
}
