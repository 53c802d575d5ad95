//! Damaged images: what is refused, by which number, and which bytes are named.

use crate::parse::Value;
use crate::support::{Folder, Random, image, sound};
use doilycairn::{Image, Refusal};

/// Expects an object to name this refusal, and the block whose entry is bad.
#[track_caller]
pub fn names(json: &Value, refusal: Refusal) {
    assert_eq!(json.number("refusal"), f64::from(refusal.number()));
    let block = refusal.block().map_or(Value::Null, |block| Value::Number(block.into()));
    assert_eq!(json.get("block"), &block);
}

/// Where in its entry the fields stand that this refusal is for.
fn fields(refusal: Refusal) -> &'static [usize] {
    match refusal {
        Refusal::BadOffset { .. } => &[0],
        Refusal::BadLength { .. } => &[4, 14],
        Refusal::BadHeader { .. } => &[8],
        Refusal::BadLoop => &[0, 4, 8, 14],
        _ => &[],
    }
}

/// `check` of these bytes: the library's verdict, and findings of which the first is that verdict.
pub fn checked(folder: &Folder, bytes: &[u8]) -> Value {
    folder.write("damaged", bytes);
    let run = folder.run("check --json damaged");
    let json = Value::of_line(&run.out);
    assert_eq!(json.number("status"), f64::from(run.status));
    let verdict = Image::open(bytes).and_then(|image| image.play().map(drop));
    match verdict {
        Ok(()) => {
            assert_eq!((run.status, json.get("sound")), (0, &Value::Bool(true)));
            assert_eq!([json.get("refusal"), json.get("block")], [&Value::Null; 2]);
        }
        Err(refusal) => {
            assert_eq!((run.status, json.get("sound")), (1, &Value::Bool(false)));
            let [first, ..] = json.list("findings") else { panic!("{refusal}: nothing found") };
            names(&json, refusal);
            names(first, refusal);
            let entry = match refusal {
                Refusal::BadLoop => Some(u32::from_be_bytes(bytes[52..56].try_into().unwrap())),
                _ => refusal.block(),
            };
            if let Some(entry) = entry {
                let place = first.number("byte") as usize - (56 + 16 * entry as usize);
                assert!(fields(refusal).contains(&place), "{refusal}: {json:?}");
            }
        }
    }
    json
}

#[test]
fn each_byte_of_head_and_table() {
    let folder = Folder::new();
    let good = image(&sound(100, 1), 32_000, 16);
    let table = 56 + 16 * 4;
    for at in 0..table {
        for altered in [good[at] ^ 1, good[at] ^ 0x80, !good[at]] {
            let mut bytes = good.clone();
            bytes[at] = altered;
            let json = checked(&folder, &bytes);
            // An entry that is wrong is named by its block and field.
            if at >= 56 && json.number("status") == 1.0 {
                let [finding] = json.list("findings") else { panic!("{json:?}") };
                assert_eq!(finding.number("block"), ((at - 56) / 16) as f64);
                let field = finding.number("byte") as usize;
                assert!(field <= at && at < field + 4, "{at} is not in the field at {field}");
            }
        }
    }
}

#[test]
fn fields_of_the_head() {
    let folder = Folder::new();
    let good = image(&sound(100, 1), 32_000, 16);
    let cases: [(usize, &[u8], &str); 9] = [
        (0, b"RIFF", "that of a WAV file, which `encode` reads"),
        (0, &[0; 4], "a clip that was started and never closed"),
        (3, b"D", "not an image's"),
        (4, &[0; 4], "0 samples; a clip has 1 to 14,680,064"),
        (4, &[0, 0xe0, 0, 1], "14,680,065 samples"),
        (8, &[0; 4], "the rate is 0"),
        (12, &[0, 0, 0, 12], "blocks of 12 bytes; they have 8 to 65,536, a multiple of 8"),
        (51, &[3], "byte 50: 3 loops; an image has 0 or 1"),
        (52, &[0, 0, 0, 5], "5 blocks; 100 samples in blocks of 16 bytes make 4"),
    ];
    for (at, altered, words) in cases {
        let mut bytes = good.clone();
        bytes[at..at + altered.len()].copy_from_slice(altered);
        folder.write("damaged", &bytes);
        let run = folder.run("check damaged");
        assert_eq!(run.status, 1);
        assert!(run.out.contains("(refusal 15)") && run.out.contains(words), "{}", run.out);
        folder.run("decode damaged out").expect(4, "(refusal 15); byte ");
    }
}

#[test]
fn every_truncation() {
    let folder = Folder::new();
    let good = image(&sound(60, 2), 32_000, 16);
    for len in 0..good.len() {
        let json = checked(&folder, &good[..len]);
        assert_eq!(json.number("refusal"), 15.0);
    }
    assert_eq!(checked(&folder, &good).number("status"), 0.0);
}

#[test]
fn random_damage_in_many_places() {
    let folder = Folder::new();
    let mut random = Random(5);
    let good = image(&sound(500, 3), 32_000, 16);
    for _ in 0..200 {
        let mut bytes = good.clone();
        for _ in 0..=random.below(20) {
            let at = random.below(bytes.len() as u64) as usize;
            bytes[at] = random.next() as u8;
        }
        checked(&folder, &bytes);
    }
}

#[test]
fn every_command_refuses_and_keeps_the_old_output() {
    let folder = Folder::new();
    let good = image(&sound(60, 2), 32_000, 16);
    folder.write("good", &good);
    folder.write("out", "old");
    let mut lowest = good.clone();
    lowest[24..28].copy_from_slice(&[0x80, 0, 0x80, 0]);
    let mut entry = good.clone();
    entry[63] ^= 1;
    for (bytes, refusal) in [
        (&good[..70], Refusal::BadHead),
        (&entry, Refusal::BadLength { block: 0 }),
        (&lowest, Refusal::LowestPair),
    ] {
        folder.write("bad", bytes);
        let words = format!("bad: {refusal}");
        for line in [
            "decode bad out",
            "decode --block 0 bad out",
            "decode --from 99 bad out",
            "same bad good",
            "same good bad",
            "same bad bad",
            "same --sound good bad",
            "join bad good out",
            "join good bad out",
            "join --reencode good bad out",
            "info --svg out bad",
        ] {
            folder.run(line).expect(4, &words);
        }
        assert_eq!(folder.read("out"), b"old");
    }
    assert_eq!(folder.names(), ["bad", "good", "out"]);
    let run = folder.run("check bad");
    assert!(run.out.contains("byte 24: pair 2 of the coefficients is -32,768 twice"));
    assert!(folder.done("info bad").out.contains("does not play"));
}

#[test]
fn many_findings_are_cut_in_words_and_listed_in_json() {
    let folder = Folder::new();
    let mut bytes = image(&sound(14 * 40, 4), 32_000, 8);
    for k in 0..40 {
        bytes[56 + 16 * k + 15] = 1;
    }
    folder.write("bad", bytes);
    let run = folder.run("check bad");
    assert_eq!((run.status, run.out.lines().count()), (1, 12));
    assert!(run.out.ends_with("  and 30 more; --json lists all\n"));
    let json = Value::of_line(&folder.run("check --json bad").out);
    assert_eq!(json.list("findings").len(), 40);
}
