//! `same`.

use crate::parse::Value;
use crate::support::{Folder, encoded, image, looped, sound};
use doilycairn::{Coefficients, History, Loop, Start};

/// The image of a silent clip at 8,000 Hz with zero coefficients: headers and nibbles are zero too.
fn silence(total: u32, block_size: u32, points: Option<(u32, u32)>) -> Vec<u8> {
    let looped = points.map(|(start, end)| Loop { start, end });
    let (coefficients, history) = (Coefficients([0; 16]), History::default());
    let start = Start { total, rate: 8000, block_size, gain: 0, coefficients, history, looped };
    encoded(&start, &vec![0; total as usize])
}

/// The same with these bytes in place of its own.
fn with(image: &[u8], places: &[(usize, u8)]) -> Vec<u8> {
    let mut bytes = image.to_vec();
    places.iter().for_each(|(place, value)| bytes[*place] = *value);
    bytes
}

/// Two images that differ, what is said of it line by line, and the JSON of each line.
struct Case {
    images: [Vec<u8>; 2],
    words: &'static str,
    json: String,
}

impl Case {
    fn of(first: &[u8], second: Vec<u8>, words: &'static str, json: impl Into<String>) -> Self {
        Self { images: [first.to_vec(), second], words, json: json.into() }
    }

    /// What is said, each line after this.
    fn lines(&self, before: &str) -> String {
        self.words.lines().map(|line| format!("{before}different: {line}\n")).collect()
    }

    /// As README.md shows it.
    #[track_caller]
    fn shown(self) -> Self {
        let shown = format!("\n\n{}\n", self.lines("    "));
        assert!(include_str!("../../README.md").contains(&shown), "{shown}");
        self
    }

    /// Compares the two: words, JSON, quiet.
    #[track_caller]
    fn hold(&self) {
        let folder = Folder::new();
        folder.write("a", &self.images[0]);
        folder.write("b", &self.images[1]);
        let run = folder.run("same a b");
        let words = self.lines("");
        assert_eq!((run.status, &run.out[..], &run.err[..]), (1, &words[..], ""));
        let run = folder.run("same --json a b");
        let list = format!(",\"differs\":[{}],\"notes\":[]}}\n", self.json);
        assert!(run.status == 1 && run.out.ends_with(&list), "{}\n{list}", run.out);
        let json = Value::of_line(&run.out);
        assert_eq!(
            (json.get("same"), json.get("sound")),
            (&Value::Bool(false), &Value::Bool(false))
        );
        let quiet = folder.run("same -q a b");
        assert_eq!((quiet.status, &quiet.out[..], &quiet.err[..]), (1, "", ""));
        assert_eq!(folder.run("same b a").status, 1);
        for name in ["a", "b"] {
            assert_eq!(folder.run(&format!("same {name} {name}")).status, 0);
        }
    }
}

/// Entries stand at 56 and 72, bodies at 88 and 96.
#[test]
fn what_differs_in_the_head() {
    let first = silence(28, 8, None);
    for (second, words, json) in [
        (
            with(&first, &[(11, 0x41)]),
            "rate 8,000 and 8,001",
            r#"{"what":"rate","values":[8000,8001]}"#,
        ),
        (with(&first, &[(49, 1)]), "gain 0 and 1", r#"{"what":"gain","values":[0,1]}"#),
        (silence(28, 16, None), "block size 8 and 16", r#"{"what":"block_size","values":[8,16]}"#),
        (
            with(&first, &[(47, 1)]),
            "coefficients: pair 7 is 0, 0 and 0, 1",
            r#"{"what":"coefficients","pair":7,"values":[[0,0],[0,1]]}"#,
        ),
        (
            with(&first, &[(16, 0x08), (20, 0xff)]),
            "coefficients: pair 0 is 0, 0 and 2048, 0\ncoefficients: pair 1 is 0, 0 and -256, 0",
            r#"{"what":"coefficients","pair":0,"values":[[0,0],[2048,0]]},{"what":"coefficients","pair":1,"values":[[0,0],[-256,0]]}"#,
        ),
    ] {
        Case::of(&first, second, words, json).hold();
    }
}

#[test]
fn what_differs_in_contexts() {
    let first = silence(28, 8, None);
    for (places, words, json) in [
        (
            &[(83, 5)][..],
            "block 1 begins after 0, 0 and 5, 0",
            r#"{"what":"history","blocks":1,"block":1,"values":[[0,0],[5,0]]}"#,
        ),
        (
            &[(66, 0xff), (67, 0xfe), (85, 5)],
            "2 of 2 blocks begin after other samples; the first is block 0, after 0, 0 and -2, 0",
            r#"{"what":"history","blocks":2,"block":0,"values":[[0,0],[-2,0]]}"#,
        ),
        (
            &[(81, 0x83), (96, 0x83)],
            "block 1 begins with header 00 and 83",
            r#"{"what":"predictor_and_scale","blocks":1,"block":1,"values":[0,131]}"#,
        ),
        (
            &[(65, 3), (88, 3), (81, 4), (96, 4)],
            "2 of 2 blocks begin with another header; the first is block 0, with header 00 and 03",
            r#"{"what":"predictor_and_scale","blocks":2,"block":0,"values":[0,3]}"#,
        ),
    ] {
        Case::of(&first, with(&first, places), words, json).hold();
    }
}

/// The loop's entry stands at 88 after two blocks, at 72 after one.
#[test]
fn what_differs_in_loops() {
    let first = silence(28, 8, Some((3, 20)));
    let (twenty, none) = (r#"{"start":3,"end":20}"#, silence(28, 8, None));
    let loops = |a: &str, b: &str| format!(r#"{{"what":"loop","values":[{a},{b}]}}"#);
    let words = "loop from sample 3 up to 20 and no loop";
    Case::of(&first, none.clone(), words, loops(twenty, "null")).hold();
    let words = "no loop and loop from sample 3 up to 20";
    Case::of(&none, first.clone(), words, loops("null", twenty)).hold();
    let words = "loop from sample 3 up to 20 and loop from sample 3 up to 21";
    let json = loops(twenty, r#"{"start":3,"end":21}"#);
    Case::of(&first, silence(28, 8, Some((3, 21))), words, json).hold();
    let json = r#"{"what":"loop_history","values":[[0,0],[0,1]]}"#;
    let second = with(&first, &[(101, 1)]);
    Case::of(&first, second, "the loop begins after 0, 0 and 0, 1", json).hold();
    // It begins in frame 1, which begins no block.
    let first = silence(28, 16, Some((14, 20)));
    let second = with(&first, &[(81, 3), (96, 3)]);
    let json = r#"{"what":"loop_predictor_and_scale","values":[0,3]}"#;
    Case::of(&first, second, "the loop begins with header 00 and 03", json).hold();
}

#[test]
fn what_differs_in_samples() {
    let first = silence(28, 8, None);
    let json = r#"{"what":"samples","samples":2,"first":26,"values":[0,-1]}"#;
    let words = "2 of 28 samples; the first is sample 26, 0 and -1";
    Case::of(&first, with(&first, &[(103, 0xf7)]), words, json).hold();
    let json = r#"{"what":"sample_count","values":[28,27]}"#;
    Case::of(&first, silence(27, 8, None), "28 and 27 samples", json).hold();
}

#[test]
fn all_that_differs_in_order() {
    let first = silence(28, 8, Some((3, 20)));
    let other = silence(28, 8, Some((3, 21)));
    // Rate, gain, a coefficient, a history, the loop's history and a sample; frame 1 begins block 1.
    let places = &[(11, 0x41), (49, 1), (47, 1), (83, 5), (81, 1), (112, 1), (99, 7), (113, 0x10)];
    let words = "rate 8,000 and 8,001
gain 0 and 1
coefficients: pair 7 is 0, 0 and 0, 1
block 1 begins after 0, 0 and 5, 0
block 1 begins with header 00 and 01
loop from sample 3 up to 20 and loop from sample 3 up to 21
the loop begins after 0, 0 and 7, 0
1 of 28 samples; the first is sample 14, 0 and 2";
    let json = r#"{"what":"rate","values":[8000,8001]},{"what":"gain","values":[0,1]},{"what":"coefficients","pair":7,"values":[[0,0],[0,1]]},{"what":"history","blocks":1,"block":1,"values":[[0,0],[5,0]]},{"what":"predictor_and_scale","blocks":1,"block":1,"values":[0,1]},{"what":"loop","values":[{"start":3,"end":20},{"start":3,"end":21}]},{"what":"loop_history","values":[[0,0],[7,0]]},{"what":"samples","samples":1,"first":14,"values":[0,2]}"#;
    Case::of(&first, with(&other, places), words, json).shown().hold();
    // Blocks of other sizes, or of clips of other lengths, are not compared.
    let second = with(&silence(29, 16, None), &[(67, 9)]);
    let words = "block size 8 and 16\nloop from sample 3 up to 20 and no loop\n28 and 29 samples";
    let json = r#"{"what":"block_size","values":[8,16]},{"what":"loop","values":[{"start":3,"end":20},null]},{"what":"sample_count","values":[28,29]}"#;
    Case::of(&first, second, words, json).hold();
}

#[test]
fn of_thousands_of_blocks_the_first_is_told() {
    let first = silence(70_000, 8, None);
    let mut second = first.clone();
    for k in 3..5000 {
        second[56 + 16 * k + 13] = 1;
    }
    let words = "4,997 of 5,000 blocks begin after other samples; the first is block 3, after 0, 0 and 0, 1";
    let json = r#"{"what":"history","blocks":4997,"block":3,"values":[[0,0],[0,1]]}"#;
    Case::of(&first, second, words, json).shown().hold();
}

/// The two are the same by both meanings, whatever their bytes.
#[track_caller]
fn alike(first: &[u8], second: &[u8]) {
    let folder = Folder::new();
    folder.write("a", first);
    folder.write("b", second);
    let told = |line: &str| folder.done(line).out;
    let (strict, sound) = (told("same a b"), told("same --sound a b"));
    assert!(strict.starts_with("the same: ") && sound.starts_with("the same sound: "));
    assert_eq!(strict.split_once(": ").unwrap().1, sound.split_once(": ").unwrap().1);
    let json = Value::of_line(&told("same --json a b"));
    assert_eq!((json.get("same"), json.get("difference")), (&Value::Bool(true), &Value::Null));
    assert!(json.list("differs").is_empty() && json.list("notes").is_empty());
}

#[test]
fn what_does_not_count() {
    let first = silence(28, 8, None);
    alike(&first, &first);
    alike(&first, &with(&first, &[(81, 0x80), (96, 0x80)]));
    alike(&first, &[&first[..], b"more"].concat());
    let odd = silence(15, 8, None);
    alike(&odd, &with(&odd, &[(97, 0x0f)]));
    let block = silence(28, 16, None);
    alike(&block, &with(&block, &[(80, 3)]));
    let tune = silence(28, 8, Some((3, 20)));
    alike(&tune, &with(&tune, &[(65, 0x80), (97, 0x80), (104, 0x80)]));
}

#[test]
fn the_sound_alone() {
    let folder = Folder::new();
    let mut clip = sound(1000, 1);
    folder.write("a", image(&clip, 32_000, 80));
    folder.write("blocks", image(&clip, 32_000, 4096));
    folder.write("rate", image(&clip, 8000, 80));
    folder.write("loop", looped(&clip, 80, (140, 999)));
    folder.write("short", image(&clip[..999], 32_000, 80));
    clip[500] += 5000;
    folder.write("other", image(&clip, 32_000, 80));
    let [rates, loops] = ["rates", "loops"].map(|what| {
        format!("doilycairn: note: the {what} differ; sameness is that of the samples\n")
    });
    for (name, note) in [("a", ""), ("blocks", ""), ("rate", &rates), ("loop", &loops)] {
        let run = folder.done(&format!("same --sound a {name}"));
        let said = "the same sound: 1,000 samples at 32,000 Hz (31.2 ms)\n";
        assert_eq!((&run.out[..], &run.err[..]), (said, note), "{name}");
        let json = Value::of_line(&folder.done(&format!("same --sound --json a {name}")).out);
        assert_eq!((json.get("sound"), json.get("same")), (&Value::Bool(true), &Value::Bool(true)));
        assert!(json.list("differs").is_empty());
        assert_eq!(json.list("notes").len(), usize::from(!note.is_empty()));
        assert_eq!(folder.run(&format!("same a {name}")).status, i32::from(name != "a"));
    }
    let run = folder.run("same --sound a other");
    assert!(run.status == 1 && run.out.starts_with("different: "), "{}", run.out);
    assert_eq!((run.out.lines().count(), &run.err[..]), (1, ""));
    let run = folder.run("same --sound a short");
    assert_eq!((run.status, &run.out[..]), (1, "different: 1,000 and 999 samples\n"));
    let quiet = folder.run("same -q --sound a other");
    assert_eq!((quiet.status, &quiet.out[..], &quiet.err[..]), (1, "", ""));
}

#[test]
fn a_loop_that_begins_after_other_samples_is_noted() {
    let folder = Folder::new();
    let tune = silence(28, 8, Some((3, 20)));
    folder.write("a", &tune);
    // The newest sample of the loop's entry, after those of two blocks; and the top bit of headers, which does not count.
    folder.write("after", with(&tune, &[(99, 5)]));
    folder.write("bit", with(&tune, &[(65, 0x80), (97, 0x80), (104, 0x80)]));
    let noted = folder.done("same --sound a after");
    assert!(noted.err.contains("note: the loops differ"), "{}", noted.err);
    assert_eq!(folder.done("same --sound a bit").err, "");
}

#[test]
fn strictly_no_note_is_needed() {
    let folder = Folder::new();
    let clip = sound(300, 1);
    folder.write("a", image(&clip, 32_000, 80));
    folder.write("b", looped(&clip, 80, (14, 20)));
    let run = folder.run("same a b");
    let words = "different: no loop and loop from sample 14 up to 20\n";
    assert_eq!((run.status, &run.out[..], &run.err[..]), (1, words, ""));
}

#[test]
fn the_first_difference() {
    let folder = Folder::new();
    let bytes = image(&sound(100, 2), 32_000, 80);
    let mut other = bytes.clone();
    // The last nibble: only the last sample hears it.
    *other.last_mut().unwrap() ^= 0x10;
    folder.write("a", &bytes);
    folder.write("b", &other);
    for option in ["", "--sound"] {
        let json = Value::of_line(&folder.run(&format!("same {option} --json a b")).out);
        assert_eq!(json.get("same"), &Value::Bool(false));
        assert_eq!(json.get("difference").number("first"), 98.0);
        assert_eq!(json.list("differs")[0].number("first"), 98.0);
        let json = Value::of_line(&folder.run(&format!("same {option} --json a a")).out);
        assert_eq!((json.get("same"), json.get("difference")), (&Value::Bool(true), &Value::Null));
    }
}

#[test]
fn one_from_standard_input() {
    let folder = Folder::new();
    let bytes = image(&sound(100, 2), 32_000, 80);
    folder.write("a", &bytes);
    folder.write("b", with(&bytes, &[(11, 1)]));
    for line in ["same - a", "same a -", "same --sound - a", "same --sound b -"] {
        assert_eq!(folder.feed(line, &bytes).status, 0, "{line}");
    }
    assert_eq!(folder.feed("same - b", &bytes).status, 1);
    assert_eq!(folder.feed("same b -", &bytes).status, 1);
    folder.run("same --sound - -").expect(2, "standard input can be read only once");
}

#[test]
fn refused_images() {
    let folder = Folder::new();
    let good = silence(28, 8, None);
    folder.write("good", &good);
    folder.write("rate", with(&good, &[(11, 1)]));
    folder.write("entry", with(&good, &[(79, 1)]));
    folder.write("lowest", with(&good, &[(16, 0x80), (18, 0x80)]));
    folder.write("none", "x");
    for option in ["", "--sound "] {
        for (line, words) in [
            ("good none", "none: not an image"),
            ("none good", "none: not an image"),
            ("rate entry", "entry: block 1: "),
            ("entry rate", "entry: block 1: "),
            ("lowest rate", "lowest: "),
            ("good lowest", "lowest: "),
            // The first through its coefficients before the second.
            ("lowest none", "lowest: "),
            ("none lowest", "none: "),
            ("entry none", "entry: "),
        ] {
            let run = folder.run(&format!("same {option}{line}"));
            assert_eq!((run.status, &run.out[..]), (4, ""), "{line}");
            assert!(run.err.starts_with(&format!("doilycairn: {words}")), "{line}: {}", run.err);
        }
        folder.run(&format!("same {option}good absent")).expect(5, "cannot read absent");
    }
    let json = Value::of_line(&folder.run("same --json --sound good lowest").out);
    assert_eq!((json.number("status"), json.get("error").number("refusal")), (4.0, 13.0));
    assert!(!json.has("same"));
}
