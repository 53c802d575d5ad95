//! Images whose loop's entry is damaged: what is refused, and which bytes are named; and loops that may click.

use crate::damage::{checked, names};
use crate::parse::Value;
use crate::support::*;
use doilycairn::{Image, Refusal};

/// The entry of the loop in the image of the ramp in two blocks: after 56 and 72.
const ENTRY: usize = 88;

/// 20 samples in two blocks, with a loop from sample 5 up to 17: bodies at 104 and 112.
fn good() -> Vec<u8> {
    ramp_image(8, Some((5, 17)))
}

/// The same with other bytes from a place on.
fn altered(at: usize, bytes: &[u8]) -> Vec<u8> {
    let mut image = good();
    image[at..at + bytes.len()].copy_from_slice(bytes);
    image
}

#[test]
fn check_says_the_field() {
    let folder = Folder::new();
    let cases: [(usize, &[u8], &[&str]); 11] = [
        (
            88,
            &[0, 0, 0, 20],
            &[
                "loop: its start is sample 20, and the clip has 20 samples (refusal 24)",
                "  at byte 88",
            ],
        ),
        (
            88,
            &[1],
            &[
                "loop: its start is sample 16,777,221, and the clip has 20 samples (refusal 24)",
                "  at byte 88",
            ],
        ),
        (
            88,
            &[0, 0, 0, 17],
            &[
                "loop: its end is 17, and has to be above its start, 17 (refusal 24)",
                "  at byte 92",
            ],
        ),
        (
            92,
            &[0, 0, 0, 0],
            &["loop: its end is 0, and has to be above its start, 5 (refusal 24)", "  at byte 92"],
        ),
        (
            92,
            &[0, 0, 0, 21],
            &["loop: its end is 21, and the clip has 20 samples (refusal 24)", "  at byte 92"],
        ),
        (
            88,
            &[0, 0, 0, 20, 0, 0, 0, 21],
            &[
                "loop: its start is sample 20, and the clip has 20 samples (refusal 24)",
                "  at byte 88",
                "  byte 92, loop: its end is 21, and the clip has 20 samples",
            ],
        ),
        (
            97,
            &[0x10],
            &[
                "loop: its header is 00 10 and the frame of its start at byte 104 begins with 00 (refusal 24)",
                "  at byte 96",
            ],
        ),
        (
            96,
            &[1],
            &[
                "loop: its header is 01 00 and the frame of its start at byte 104 begins with 00 (refusal 24)",
                "  at byte 96",
            ],
        ),
        // A start in the other frame, whose header is 07.
        (
            88,
            &[0, 0, 0, 14],
            &[
                "loop: its header is 00 00 and the frame of its start at byte 112 begins with 07 (refusal 24)",
                "  at byte 96",
            ],
        ),
        (
            103,
            &[1],
            &["loop: its zero bytes are 00 01 and not 00 00 (refusal 24)", "  at byte 102"],
        ),
        (
            95,
            &[99, 0, 0, 4, 0, 3, 250, 1, 0],
            &[
                "loop: its end is 99, and the clip has 20 samples (refusal 24)",
                "  at byte 92",
                "  byte 102, loop: its zero bytes are 01 00 and not 00 00",
            ],
        ),
    ];
    for (at, bytes, lines) in cases {
        folder.write("bad", altered(at, bytes));
        let run = folder.run("check bad");
        assert_eq!((run.status, run.out), (1, format!("bad: {}\n", lines.join("\n"))));
        checked(&folder, &altered(at, bytes));
    }
}

#[test]
fn every_byte_of_the_entry() {
    let folder = Folder::new();
    for image in [good(), ramp_image(16, Some((19, 20))), looped(&sound(100, 1), 16, (13, 90))] {
        let entry = 56 + 16 * usize::from(image[55]);
        for at in entry..entry + 16 {
            for byte in [image[at] ^ 1, image[at] ^ 0x80, !image[at]] {
                let mut bytes = image.clone();
                bytes[at] = byte;
                let json = checked(&folder, &bytes);
                if json.number("status") == 0.0 {
                    // Any start and end that are a loop's, in the same frame, and any history.
                    assert!(at < entry + 8 || (entry + 10..entry + 14).contains(&at), "{at}");
                    continue;
                }
                let found = json.list("findings");
                assert_eq!(found.len(), 1, "{json:?}");
                names(&found[0], Refusal::BadLoop);
                let field = found[0].number("byte") as usize;
                assert!([0, 4, 8, 14].contains(&(field - entry)), "{field}");
                // Where it is not the start's, which may come to be in another frame or above the end.
                assert!(
                    at < entry + 4 || field <= at && at < field + 4,
                    "{at} is not in the field at {field}"
                );
            }
        }
    }
}

#[test]
fn pairs_of_bytes() {
    let folder = Folder::new();
    // The count of loops, both blocks' entries, the loop's, and the first bytes of both bodies.
    let places = [51, 59, 63, 65, 75, 79, 81, 91, 95, 97, 103, 104, 112];
    for (i, a) in places.into_iter().enumerate() {
        for b in places.into_iter().skip(i) {
            let mut bytes = good();
            bytes[a] ^= 0x10;
            bytes[b] ^= 1;
            checked(&folder, &bytes);
        }
    }
}

#[test]
fn the_count_of_loops() {
    let folder = Folder::new();
    let head = Refusal::BadHead.to_string();
    let plain = ramp_image(8, None);
    let with = |mut bytes: Vec<u8>, count: [u8; 2], more: usize| {
        bytes[50..52].copy_from_slice(&count);
        bytes.resize(bytes.len() + more, 0);
        bytes
    };
    let cases: [(Vec<u8>, &[&str]); 5] = [
        (with(good(), [0, 2], 0), &[&head, "  byte 50: 2 loops; an image has 0 or 1"]),
        (with(good(), [1, 1], 0), &[&head, "  byte 50: 257 loops; an image has 0 or 1"]),
        (
            with(plain.clone(), [0, 1], 0),
            &[
                &head,
                "  byte 100: the file ends; 20 samples in blocks of 8 bytes and a loop (bytes 50 and 51) take 116 bytes: 16 bytes are missing",
            ],
        ),
        (
            with(good(), [0, 0], 0),
            &[
                "block 0: its offset is 104 and not 88; with a loop (bytes 50 and 51: 00 01) it would be right (refusal 20)",
                "  at byte 56",
                "  byte 72, block 1: its offset is 112 and not 96",
                "  byte 80, block 1: its header is 00 07 and its body at byte 96 begins with 00",
            ],
        ),
        (
            with(plain, [0, 1], 16),
            &[
                "block 0: its offset is 88 and not 104; without a loop (bytes 50 and 51: 00 00) it would be right (refusal 20)",
                "  at byte 56",
                "  byte 72, block 1: its offset is 96 and not 112",
                "  byte 80, block 1: its header is 00 07 and its body at byte 112 begins with 00",
                "  byte 88, loop: its start is sample 419,430, and the clip has 20 samples",
                "  byte 92, loop: its end is 1,717,986,918, and the clip has 20 samples",
            ],
        ),
    ];
    for (bytes, lines) in cases {
        folder.write("bad", &bytes);
        let run = folder.run("check bad");
        assert_eq!((run.status, run.out), (1, format!("bad: {}\n", lines.join("\n"))));
        checked(&folder, &bytes);
    }
}

#[test]
fn every_truncation() {
    let folder = Folder::new();
    for len in 0..116 {
        assert_eq!(checked(&folder, &good()[..len]).number("refusal"), 15.0);
    }
    assert_eq!(checked(&folder, &good()).number("status"), 0.0);
}

#[test]
fn every_command_names_it() {
    let folder = Folder::new();
    folder.write("good", good());
    folder.write("bad", altered(95, &[21]));
    folder.write("in.wav", wav(&sound(100, 1), 32_000));
    for line in [
        "decode bad out",
        "decode --loop 0 bad out",
        "decode --block 9 bad out",
        "decode --from 99 bad out",
        "info bad",
        "same bad good",
        "same good bad",
        "same --sound bad good",
        "join --drop-loop bad good out",
        "join good bad out",
        "trim --drop-loop bad out",
        "encode --after bad in.wav out",
        "encode --coefficients bad in.wav out",
    ] {
        let words = format!(
            "doilycairn: bad: {}; byte 92: its end is 21, and the clip has 20 samples\n",
            Refusal::BadLoop
        );
        folder.run(line).expect(4, &words);
        let json = Value::of_line(&folder.run(&format!("{line} --json")).out);
        names(json.get("error"), Refusal::BadLoop);
    }
    assert_eq!(folder.names(), ["bad", "good", "in.wav"]);
}

#[test]
fn a_history_that_is_not_what_is_played() {
    let folder = Folder::new();
    folder.write("good", good());
    folder.write("bad", altered(ENTRY + 10, &[0, 0, 0, 0]));
    let words = "clicks: the loop's stored history is not what is played before its start, sample 5, and a click may be heard: \
        0,0 and not 1024,1018\n";
    let run = folder.done("check bad");
    assert!(
        run.out.contains("opens and plays") && run.out.ends_with(&format!("\n  {words}")),
        "{}",
        run.out
    );
    assert!(folder.done("info bad").out.contains(&words.replace("clicks:", "  clicks    ")));
    for command in ["check", "info"] {
        assert!(!folder.done(&format!("{command} good")).out.contains("click"));
        let json = Value::of_line(&folder.done(&format!("{command} --json bad")).out);
        assert_eq!(json.get("loop").get("click"), &Value::Bool(true));
        assert!(json.list("clicks").is_empty());
    }
    assert_eq!(folder.run("check --strict good").status, 0);
    let run = folder.run("check --strict bad");
    assert_eq!((run.status, &run.err[..]), (1, ""));
    assert_eq!(Value::of_line(&folder.run("check --strict --json bad").out).number("status"), 1.0);
    folder.done("info --svg out.svg bad");
    let svg = String::from_utf8(folder.read("out.svg")).unwrap();
    assert!(svg.contains(">loop from 5 up to 17, click: history off by 1,024<"));
    assert!(
        svg.contains("Its stored history is not what was played before it, by 1,024.")
            && svg.contains(">click<")
    );
}

/// What is played before the start, at every start.
#[test]
fn every_byte_of_the_history_is_heard_or_told() {
    let folder = Folder::new();
    let clip = sound(60, 2);
    for start in [0, 1, 2, 13, 14, 15, 27, 28, 29, 55, 56, 57, 59] {
        let bytes = looped(&clip, 16, (start, 60));
        folder.write("in", &bytes);
        folder.done("check --strict in");
        let entry = 56 + 16 * 3;
        for at in entry + 10..entry + 14 {
            let mut other = bytes.clone();
            other[at] ^= 1;
            assert!(Image::open(&other).is_ok());
            folder.write("in", &other);
            assert_eq!(folder.run("check --strict in").status, 1, "{start} {at}");
        }
    }
}
