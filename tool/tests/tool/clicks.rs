//! Blocks that do not go on from what the block before them leaves.

use crate::parse::Value;
use crate::support::{Folder, image, sound};
use doilycairn::Image;

/// An image, and the same with another history in one block's entry.
fn images() -> (Vec<u8>, Vec<u8>) {
    let bytes = image(&sound(3000, 1), 32_000, 80);
    let mut altered = bytes.clone();
    altered[56 + 16 * 7 + 10] ^= 0x10;
    (bytes, altered)
}

#[test]
fn check_and_info_tell_them() {
    let folder = Folder::new();
    let (bytes, altered) = images();
    folder.write("good", &bytes);
    folder.write("bad", &altered);
    let stored = Image::open(&altered).unwrap().block(7).unwrap().context.last_samples;
    let left = Image::open(&bytes).unwrap().block(7).unwrap().context.last_samples;
    let words =
        format!("block 7, sample 980: {},{} and not {},{}", stored[0], stored[1], left[0], left[1]);
    for command in ["check", "info"] {
        let good = folder.done(&format!("{command} good")).out;
        assert!(!good.contains("click"), "{good}");
        let bad = folder.done(&format!("{command} bad")).out;
        assert!(bad.contains("clicks") && bad.contains(&words), "{bad}");
        let json = Value::of_line(&folder.done(&format!("{command} --json bad")).out);
        // Later ones follow from the first: a block that plays otherwise leaves another history.
        let click = &json.list("clicks")[0];
        assert_eq!((click.number("block"), click.number("sample")), (7.0, 980.0));
        let json = Value::of_line(&folder.done(&format!("{command} --json good")).out);
        assert!(json.list("clicks").is_empty());
    }
}

#[test]
fn strict_makes_them_a_no() {
    let folder = Folder::new();
    let (bytes, altered) = images();
    folder.write("good", &bytes);
    folder.write("bad", &altered);
    assert_eq!(folder.run("check bad").status, 0);
    assert_eq!(folder.run("check --strict good").status, 0);
    let run = folder.run("check --strict bad");
    assert_eq!((run.status, &run.err[..]), (1, ""));
    assert!(run.out.contains("opens and plays"));
    let json = Value::of_line(&folder.run("check --strict --json bad").out);
    assert_eq!(json.number("status"), 1.0);
    assert_eq!(folder.run("check --strict good bad").status, 1);
}

#[test]
fn the_picture_marks_the_same_edge() {
    let folder = Folder::new();
    folder.write("bad", images().1);
    folder.done("info --svg out.svg bad");
    let svg = String::from_utf8(folder.read("out.svg")).unwrap();
    assert!(svg.contains("click: history off by") && svg.contains("at 980"));
}
