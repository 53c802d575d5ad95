//! `decode --from` and `--count`, refused: by 19, by what comes before it, and by the command line.

use crate::damage::names;
use crate::parse::Value;
use crate::support::{Folder, image, sound};
use doilycairn::Refusal;

#[test]
fn the_first_sample_has_to_be_in_the_clip() {
    let folder = Folder::new();
    folder.write("in", image(&sound(15, 1), 32_000, 8));
    folder.write("long", image(&sound(40_000, 1), 32_000, 8192));
    folder.write("one", image(&[7], 32_000, 8));
    folder.write("out", "old");
    let cases = [
        ("--from 15 in", "in", "15 samples"),
        ("--from 15 --count 0 in", "in", "15 samples"),
        ("--from 15 --count 9 in", "in", "15 samples"),
        ("--raw --from 4294967295 --count 1 in", "in", "15 samples"),
        ("--from 40000 long", "long", "40,000 samples"),
        ("--from 1 one", "one", "1 sample"),
    ];
    for (line, name, has) in cases {
        let words = format!("{name}: {}; it has {has}", Refusal::NoSuchSample);
        let run = folder.run(&format!("decode {line} out"));
        assert_eq!((run.status, run.err), (4, format!("doilycairn: {words}\n")), "{line}");
        let run = folder.run(&format!("decode --json {line} out"));
        assert_eq!((run.status, &run.err[..]), (4, ""), "{line}");
        let json = Value::of_line(&run.out);
        names(json.get("error"), Refusal::NoSuchSample);
        assert_eq!(json.get("error").text("message"), words);
        assert!(!json.has("from") && !json.has("blocks_touched"));
    }
    assert_eq!(folder.read("out"), b"old");
    assert_eq!(folder.names(), ["in", "long", "one", "out"]);
}

/// What is wrong with the image is told before the first sample is looked at.
#[test]
fn the_image_comes_first() {
    let folder = Folder::new();
    let good = image(&sound(15, 1), 32_000, 8);
    let altered = |places: &[usize]| {
        let mut bytes = good.clone();
        places.iter().for_each(|at| bytes[*at] ^= 0x10);
        bytes
    };
    let lowest = |mut bytes: Vec<u8>| {
        bytes[24..28].copy_from_slice(&[0x80, 0, 0x80, 0]);
        bytes
    };
    let cases = [
        (good[..97].to_vec(), Refusal::BadHead, "; byte 97: "),
        (altered(&[55, 59]), Refusal::BadHead, "; byte 52: "),
        (lowest(altered(&[59, 63])), Refusal::BadOffset { block: 0 }, "; byte 56: "),
        (lowest(altered(&[79, 81])), Refusal::BadLength { block: 1 }, "; byte 76: "),
        (lowest(altered(&[81])), Refusal::BadHeader { block: 1 }, "; byte 80: "),
        (lowest(good.clone()), Refusal::LowestPair, "\n"),
    ];
    for (bytes, refusal, more) in cases {
        folder.write("bad", bytes);
        for options in ["--from 15", "--from 4294967295 --count 0", "--from 3", "--count 0"] {
            let run = folder.run(&format!("decode {options} bad out"));
            run.expect(4, &format!("doilycairn: bad: {refusal}{more}"));
            let json = Value::of_line(&folder.run(&format!("decode --json {options} bad out")).out);
            names(json.get("error"), refusal);
        }
    }
    assert_eq!(folder.names(), ["bad"]);
}

#[test]
fn command_lines_that_are_wrong() {
    let folder = Folder::new();
    folder.write("in", image(&sound(100, 1), 32_000, 8));
    let most = "is not a number from 0 to 4,294,967,295";
    let cases = [
        (
            "--block 0 --from 5",
            "--block and --from: give one of the two; see `doilycairn decode --help`",
        ),
        ("--from 5 --block 0", "--block and --from: give one of the two"),
        ("--count 5 --block 0", "--block and --count: give one of the two"),
        ("--count 5 --from 0 --block 0", "--block and --from: give one of the two"),
        ("--from -1", &format!("--from: '-1' {most}")),
        ("--from 1.5", &format!("--from: '1.5' {most}")),
        ("--from 1s", &format!("--from: '1s' {most}")),
        ("--from=", &format!("--from: '' {most}")),
        ("--from 4294967296", &format!("--from: '4294967296' {most}")),
        ("--count x", &format!("--count: 'x' {most}")),
        (
            "--from 5 --count 99999999999999999999999",
            &format!("--count: '99999999999999999999999' {most}"),
        ),
        ("--from 5 --from 5", "--from is given twice"),
        ("--count 5 --count 5", "--count is given twice"),
        ("--to 5", "unknown option '--to'"),
        ("--form 5", "unknown option '--form'; did you mean '--from'?"),
        ("--cuont 5", "unknown option '--cuont'; did you mean '--count'?"),
    ];
    for (options, words) in cases {
        folder.run(&format!("decode {options} in out")).expect(2, words);
        let json = Value::of_line(&folder.run(&format!("decode {options} --json in out")).out);
        assert_eq!(json.number("status"), 2.0, "{options}");
        // With many files it is told once, before anything is made.
        let run = folder.run(&format!("decode {options} --into folder in"));
        run.expect(2, words);
        assert_eq!(run.err.lines().count(), 1, "{}", run.err);
    }
    folder.run("decode in out --count").expect(2, "--count lacks its value");
    folder.run("trim --count 5 in out").expect(2, "unknown option '--count'");
    assert_eq!(folder.names(), ["in"]);
}
