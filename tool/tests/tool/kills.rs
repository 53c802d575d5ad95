//! Killed half way: the output is the old one or the new one, whole.

use crate::support::{Folder, image, raw, sound, wav};
use std::io::Write;
use std::process::Stdio;
use std::thread::sleep;
use std::time::Duration;

#[test]
fn killed_while_it_reads() {
    let folder = Folder::new();
    folder.write("out", "old");
    let mut command = folder.tool(&["encode", "--raw", "--rate", "1", "-", "out"]);
    let mut child = command.stdin(Stdio::piped()).spawn().unwrap();
    let mut input = child.stdin.take().unwrap();
    input.write_all(&raw(&sound(100_000, 1))).unwrap();
    sleep(Duration::from_millis(50));
    child.kill().unwrap();
    assert!(!child.wait().unwrap().success());
    assert_eq!(folder.read("out"), b"old");
    assert_eq!(folder.names(), ["out"]);
}

#[test]
fn killed_at_any_time() {
    let folder = Folder::new();
    let clip = sound(200_000, 2);
    folder.write("in.wav", wav(&clip, 32_000));
    folder.write("in.dspc", image(&clip, 32_000, 8));
    let new = [image(&clip, 32_000, 8192), folder.done("decode in.dspc -").bytes];
    let lines = [["encode", "in.wav", "out"], ["decode", "in.dspc", "out"]];
    for (words, new) in lines.iter().zip(&new) {
        for wait in 0..40 {
            folder.write("out", "old");
            let mut child = folder.tool(words).stderr(Stdio::null()).spawn().unwrap();
            sleep(Duration::from_micros(500 * wait));
            child.kill().unwrap();
            let done = child.wait().unwrap().success();
            let out = folder.read("out");
            assert!(out == *new || (out == b"old" && !done), "neither old nor new");
            clean(&folder);
        }
    }
}

/// Removes what a kill may leave: a temporary file, known by its name.
fn clean(folder: &Folder) {
    for name in folder.names() {
        if !["in.wav", "in.dspc", "out"].contains(&&name[..]) {
            assert!(name.starts_with(".doilycairn-") && name.ends_with(".part"), "{name}");
            std::fs::remove_file(folder.path(&name)).unwrap();
        }
    }
}
