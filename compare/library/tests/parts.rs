//! Nothing differs, every refusal is seen, and each comparison can fail.

use library::{FrameCount, LONG, PARTS, Part, run};
use std::process::Command;

/// The count of cases; a case of `contents` damages its image in thousands of ways, one of `loops` in hundreds, a case of `parts` has fourteen runs, one
/// of `files` ten imports.
fn count(part: &Part, most: u64) -> u64 {
    match part.name {
        "contents" => most / 25,
        "loops" => most / 4,
        "parts" | "files" => most / 2,
        _ => most,
    }
}

#[test]
fn nothing_differs() {
    let mut refused = [0; 36];
    for part in &PARTS {
        let count = count(part, 400);
        let tally = run(part, count, 1, None);
        assert_eq!(tally.differences, 0, "{tally}");
        assert_eq!(tally.cases, count);
        for (sum, count) in refused.iter_mut().zip(tally.refused) {
            *sum += count;
        }
    }
    let unused: Vec<_> = (0..refused.len()).filter(|code| refused[*code] == 0).collect();
    assert_eq!(unused, [16, 27, 28, 29, 30, 31, 32, 33, 34], "{refused:?}");
}

#[test]
fn no_long_clip_differs() {
    let tally = run(&LONG, 2, 1, None);
    assert_eq!(tally.differences, 0, "{tally}");
}

#[test]
fn each_comparison_can_fail() {
    for part in &PARTS {
        let count = count(part, 50);
        let made = run(part, count, 2, None).compared;
        assert!(!made.is_empty());
        for what in made.keys() {
            let tally = run(part, count, 2, Some(what));
            assert!(tally.differences > 0, "{}: {what}", part.name);
            assert_eq!(tally.compared, made);
        }
    }
}

/// The part of this name.
fn part(name: &str) -> &'static Part {
    PARTS.iter().find(|part| part.name == name).unwrap()
}

#[test]
fn each_altered_answer_through_c_is_found() {
    for (what, count) in run(part("contents"), 1, 3, None).compared {
        assert_eq!(run(part("contents"), 1, 3, Some(what)).differences, count, "{what}");
    }
}

#[test]
fn each_call_names_the_first_block_and_later_ones() {
    let seen = run(part("contents"), 4, 4, None).bad_entries;
    let calls = ["open", "block_body", "play", "play_all", "play_from", "play_loop"];
    for what in calls.into_iter().chain(["same", "sounds_same"]) {
        for code in 20..=22 {
            for later in [false, true] {
                assert!(seen[&(what, code, later)] >= 100, "{what}, {code}: {seen:?}");
            }
        }
    }
}

#[test]
fn runs_are_refused_for_every_reason() {
    let refused = run(part("parts"), 400, 5, None).refused;
    for (code, count) in refused.into_iter().enumerate().skip(1) {
        let expected = [13, 15, 19, 20, 21, 22, 24].contains(&code);
        assert_eq!(count >= 50, expected, "{code}: {count}");
        assert!(expected || count == 0, "{code}: {count}");
    }
}

#[test]
fn loops_are_refused_for_every_reason() {
    let refused = run(part("loops"), 200, 7, None).refused;
    for code in [1, 7, 8, 9, 10, 11, 13, 14, 15, 20, 22, 23, 24] {
        assert!(refused[code] >= 5, "{code}: {refused:?}");
    }
}

#[test]
fn images_are_compared_with_every_answer() {
    let tally = run(part("sameness"), 4000, 8, None);
    for code in [13, 15, 20, 21, 22, 24] {
        assert!(tally.refused[code] >= 50, "{tally}");
    }
    let made = |what| tally.compared[what];
    assert!(made("transitive") > 1000 && made("transitive by sound") > made("transitive") + 500);
    assert!(made("same is the same sound") + 3000 < made("symmetric"), "{tally}");
}

#[test]
fn files_and_images_are_refused_for_every_reason() {
    let tally = run(part("files"), 1000, 9, None);
    let codes = [4, 5, 6, 8, 13, 14, 15, 20, 21, 22, 24, 25, 26, 35];
    for (code, count) in tally.refused.into_iter().enumerate().skip(1) {
        assert_eq!(count >= 50, codes.contains(&code), "{code}: {tally}");
    }
    let seen = tally.bad_entries;
    for (code, later) in [20, 21, 22].map(|code| [(code, false), (code, true)]).concat() {
        assert!(seen[&("export_dsp", code, later)] >= 20, "{seen:?}");
    }
    assert!(seen[&("export_dsp", 35, true)] >= 200, "{seen:?}");
    assert!(!seen.contains_key(&("export_dsp", 35, false)));
}

#[test]
fn frames_with_an_older_bank_are_many_and_do_not_all_end_at_exponent_12() {
    for (name, count) in [("frames", 6000), ("clips", 300)] {
        let frames = run(part(name), count, 6, None).frames;
        let FrameCount { all, older, older_at_12, .. } = frames;
        assert!((all / 5..all / 2).contains(&older), "{name}: {frames}");
        assert!((older / 10..older * 9 / 10).contains(&older_at_12), "{name}: {frames}");
    }
}

/// The exit status of the program.
fn status(words: &[&str]) -> Option<i32> {
    let program = Command::new(env!("CARGO_BIN_EXE_library")).args(words).output();
    program.unwrap().status.code()
}

#[test]
fn the_program_says_whether_anything_differs() {
    assert_eq!(status(&["20", "3"]), Some(0));
    assert_eq!(status(&["1", "3", "contents", "wrong=same"]), Some(1));
    assert_eq!(status(&["20", "3", "frames", "wrong=encode_frame"]), Some(1));
    assert_eq!(status(&["20", "3", "clips", "wrong=image"]), Some(1));
    assert_eq!(status(&["20", "3", "parts", "wrong=in two"]), Some(1));
    assert_eq!(status(&["20", "3", "loops", "wrong=play_loop's output"]), Some(1));
    assert_eq!(status(&["20", "3", "sameness", "wrong=transitive"]), Some(1));
    assert_eq!(status(&["20", "3", "files", "wrong=import_dsp's image"]), Some(1));
    assert_eq!(status(&["20", "3", "blocks", "wrong=image"]), Some(2));
    for words in [&["20"][..], &["20", "x"], &["20", "3", "others"]] {
        assert_eq!(status(words), Some(2));
    }
}
