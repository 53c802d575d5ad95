//! Bytes after an image, also beyond what any image may have.

use crate::parse::Value;
use crate::support::{Folder, image, sound};
use std::fs::File;

/// An image in a file with so many bytes after it, which take no room on the disk.
fn folder(after: u64) -> Folder {
    let folder = Folder::new();
    let bytes = image(&sound(100, 1), 32_000, 80);
    folder.write("in", &bytes);
    let file = File::options().write(true).open(folder.path("in")).unwrap();
    file.set_len(bytes.len() as u64 + after).unwrap();
    folder
}

#[test]
fn bytes_after_the_image() {
    for after in [0, 1, (1 << 25) - 200, 1 << 25, (1 << 25) + 12_345, 5 << 30] {
        let folder = folder(after);
        for command in ["check", "info"] {
            let json = Value::of_line(&folder.done(&format!("{command} --json in")).out);
            assert_eq!(json.number("bytes_after"), after as f64);
        }
    }
}

#[test]
fn bytes_after_the_image_in_a_pipe() {
    let folder = folder((1 << 25) + 999);
    let bytes = folder.read("in");
    let json = Value::of_line(&folder.feed("check --json -", &bytes).out);
    assert_eq!(json.number("bytes_after"), f64::from((1 << 25) + 999));
}
