//! Images with bad entries: the block and the field that are named.

use crate::damage::{checked, names};
use crate::parse::Value;
use crate::support::{Folder, image, sound, wav};
use doilycairn::Refusal;

/// Two blocks of 15 samples in all: entries at 56 and 72, bodies at 88 and 96.
fn two_blocks() -> Vec<u8> {
    image(&sound(15, 1), 32_000, 8)
}

/// The same with these bytes altered.
fn altered(good: &[u8], places: &[usize]) -> Vec<u8> {
    let mut bytes = good.to_vec();
    for at in places {
        bytes[*at] ^= 0x10;
    }
    bytes
}

#[test]
fn check_says_block_and_field() {
    let folder = Folder::new();
    let good = image(&[0; 15], 32_000, 8);
    let head = Refusal::BadHead.to_string();
    let cases: [(&[usize], &[&str]); 9] = [
        (&[59], &["block 0: its offset is 72 and not 88 (refusal 20)", "  at byte 56"]),
        (&[79], &["block 1: its length is 19 and not 3 nibbles (refusal 21)", "  at byte 76"]),
        (&[87], &["block 1: its zero bytes are 00 10 and not 00 00 (refusal 21)", "  at byte 86"]),
        (
            &[64],
            &[
                "block 0: its header is 10 00 and its body at byte 88 begins with 00 (refusal 22)",
                "  at byte 64",
            ],
        ),
        (
            &[96],
            &[
                "block 1: its header is 00 00 and its body at byte 96 begins with 10 (refusal 22)",
                "  at byte 80",
            ],
        ),
        (
            &[79, 81],
            &[
                "block 1: its length is 19 and not 3 nibbles (refusal 21)",
                "  at byte 76",
                "  byte 80, block 1: its header is 00 10 and its body at byte 96 begins with 00",
            ],
        ),
        (
            &[65, 75],
            &[
                "block 0: its header is 00 10 and its body at byte 88 begins with 00 (refusal 22)",
                "  at byte 64",
                "  byte 72, block 1: its offset is 112 and not 96",
            ],
        ),
        (
            &[71, 65],
            &[
                "block 0: its zero bytes are 00 10 and not 00 00 (refusal 21)",
                "  at byte 70",
                "  byte 64, block 0: its header is 00 10 and its body at byte 88 begins with 00",
            ],
        ),
        (&[55, 59], &[&head, "  byte 52: 18 blocks; 15 samples in blocks of 8 bytes make 2"]),
    ];
    for (places, lines) in cases {
        folder.write("bad", altered(&good, places));
        let run = folder.run("check bad");
        assert_eq!((run.status, run.out), (1, format!("bad: {}\n", lines.join("\n"))));
    }
}

#[test]
fn pairs_of_bytes_of_one_entry_and_of_two() {
    let folder = Folder::new();
    let good = two_blocks();
    // Offset, length, header and zero bytes of both entries, and the first bytes of both bodies.
    let places = [59, 63, 65, 71, 75, 79, 81, 87, 88, 96];
    for (i, a) in places.into_iter().enumerate() {
        for b in places.into_iter().skip(i + 1) {
            checked(&folder, &altered(&good, &[a, b]));
        }
    }
}

#[test]
fn every_command_names_the_block() {
    let folder = Folder::new();
    let good = two_blocks();
    folder.write("good", &good);
    folder.write("in.wav", wav(&sound(100, 1), 32_000));
    let cases = [
        (59, Refusal::BadOffset { block: 0 }, "; byte 56: its offset is 72 and not 88\n"),
        (79, Refusal::BadLength { block: 1 }, "; byte 76: its length is 19 and not 3 nibbles\n"),
        (81, Refusal::BadHeader { block: 1 }, "; byte 80: its header is "),
    ];
    for (at, refusal, found) in cases {
        folder.write("bad", altered(&good, &[at]));
        for line in [
            "decode bad out",
            "decode --block 1 bad out",
            "decode --from 99 bad out",
            "decode --count 0 bad out",
            "info bad",
            "same bad good",
            "same good bad",
            "same --sound bad good",
            "join bad good out",
            "join good bad out",
            "trim bad out",
            "encode --after bad in.wav out",
            "encode --coefficients bad in.wav out",
        ] {
            folder.run(line).expect(4, &format!("doilycairn: bad: {refusal}{found}"));
            let json = Value::of_line(&folder.run(&format!("{line} --json")).out);
            names(json.get("error"), refusal);
        }
    }
    assert_eq!(folder.names(), ["bad", "good", "in.wav"]);
}
