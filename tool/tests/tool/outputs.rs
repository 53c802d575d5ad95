//! What is left on the disk.

use crate::support::{Folder, Run, TOOL, image, looped, sound, wav};
use doilycairn::Image;
use std::fs::{self, File, Permissions};
use std::os::unix::fs::{PermissionsExt, symlink};
use std::process::{Command, Stdio};

/// A folder with a clip and an old output.
fn folder() -> Folder {
    let folder = Folder::new();
    folder.write("in.wav", wav(&sound(20_000, 1), 32_000));
    folder.write("a", image(&sound(20_020, 1), 32_000, 80));
    folder.write("loop", looped(&sound(20_020, 1), 80, (5, 17)));
    folder.write("in.dsp", Image::open(&folder.read("a")).unwrap().to_dsp().unwrap());
    folder.write("out", "old");
    folder
}

#[test]
fn a_full_disk_leaves_the_old_output() {
    let folder = folder();
    for line in [
        "encode in.wav out",
        "decode a out",
        "decode --from 1 a out",
        "decode --loop 9999 loop out",
        "join a a out",
        "join --reencode a a out",
        "export a out",
        "import in.dsp out",
    ] {
        // Files of up to 4 blocks of 512 bytes: writing fails half way.
        let script = format!("trap '' XFSZ; ulimit -f 4; exec {TOOL} {line}");
        let output = Command::new("sh").arg("-c").arg(script).current_dir(&folder.0).output();
        let run = Run::of(&output.unwrap());
        run.expect(5, "cannot write out: File too large");
        assert_eq!(folder.read("out"), b"old", "{line}");
        assert_eq!(folder.names(), ["a", "in.dsp", "in.wav", "loop", "out"], "{line}");
    }
}

#[test]
fn devices_are_written_in_place() {
    let folder = folder();
    for line in ["encode in.wav /dev/full", "decode a /dev/full", "info --svg /dev/full a"] {
        folder.run(line).expect(5, "cannot write /dev/full: No space left on device");
    }
    folder.done("encode in.wav /dev/null");
    assert!(!fs::metadata("/dev/null").unwrap().is_file());
}

#[test]
fn standard_output_that_fails() {
    let folder = folder();
    for line in [
        "info a",
        "info --json a",
        "check a",
        "decode a -",
        "decode --from 9 a -",
        "decode --loop 9999 loop -",
        "export a -",
        "import in.dsp -",
        "encode in.wav -",
        "--help",
    ] {
        let words: Vec<_> = line.split(' ').collect();
        let full = File::options().write(true).open("/dev/full").unwrap();
        let output = folder.tool(&words).stdout(full).stderr(Stdio::piped()).output().unwrap();
        Run::of(&output).expect(5, "cannot write standard output: No space left");
        let (reader, writer) = std::io::pipe().unwrap();
        drop(reader);
        let output = folder.tool(&words).stdout(writer).stderr(Stdio::piped()).output().unwrap();
        let run = Run::of(&output);
        assert_eq!(run.status, 5, "{line}");
        assert!(!run.err.contains("panic") && !run.err.contains("doilycairn: "), "{}", run.err);
    }
}

#[test]
fn permissions_and_links_stay() {
    let folder = folder();
    fs::set_permissions(folder.path("out"), Permissions::from_mode(0o640)).unwrap();
    symlink("out", folder.path("link")).unwrap();
    folder.done("encode in.wav link");
    assert!(fs::symlink_metadata(folder.path("link")).unwrap().is_symlink());
    assert_eq!(folder.read("out"), image(&sound(20_000, 1), 32_000, 8192));
    let mode = fs::metadata(folder.path("out")).unwrap().permissions().mode();
    assert_eq!(mode & 0o7777, 0o640);
    assert_eq!(folder.names(), ["a", "in.dsp", "in.wav", "link", "loop", "out"]);
}

#[test]
fn a_new_file_has_the_usual_permissions() {
    let folder = folder();
    folder.done("encode in.wav new");
    folder.write("other", "");
    let mode = |name: &str| fs::metadata(folder.path(name)).unwrap().permissions().mode();
    assert_eq!(mode("new"), mode("other"));
}

#[test]
fn read_only_files_and_inputs_need_force() {
    let folder = folder();
    fs::set_permissions(folder.path("out"), Permissions::from_mode(0o444)).unwrap();
    folder.run("encode in.wav out").expect(5, "it is marked read-only; --force replaces it");
    assert_eq!(folder.read("out"), b"old");
    folder.done("encode --force in.wav out");
    assert_ne!(folder.read("out"), b"old");
    symlink("a", folder.path("link")).unwrap();
    fs::hard_link(folder.path("a"), folder.path("hard")).unwrap();
    for line in ["decode a a", "decode a ./a", "decode a link", "decode link a", "decode a hard"] {
        folder.run(line).expect(2, "is an input too: --force writes over it");
    }
    folder.run("decode --from 5 a a").expect(2, "is an input too: --force writes over it");
    folder.run("encode --coefficients a in.wav a").expect(2, "a is an input too");
    folder.run("info --against in.wav --svg in.wav a").expect(2, "in.wav is an input too");
    let wanted = folder.done("decode a -").bytes;
    folder.done("decode --force a a");
    assert_eq!(folder.read("a"), wanted);
}

#[test]
fn places_that_cannot_be() {
    let folder = folder();
    fs::create_dir(folder.path("dir")).unwrap();
    for place in ["dir", "dir/", "absent/x", "in.wav/x", "new/"] {
        folder.run(&format!("decode a {place}")).expect(5, "cannot write ");
    }
    let output = folder.tool(&["decode", "a", ""]).output().unwrap();
    assert_eq!(output.status.code(), Some(5));
    let long = "n".repeat(255);
    folder.done(&format!("decode a {long}"));
    folder.run(&format!("decode a {long}n")).expect(5, "cannot write ");
    assert_eq!(folder.names(), ["a", "dir", "in.dsp", "in.wav", "loop", &long, "out"]);
}
