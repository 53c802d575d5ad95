//! ./demo, with a checker and a builder that only pretend: what it tells on the way, and how it ends.

use crate::support::{Folder, TOOL, image, image_with, sound, wav};
use doilycairn::{Coefficients, History};
use std::fs::{self, Permissions};
use std::os::unix::fs::{PermissionsExt, symlink};
use std::process::{Command, Output, Stdio};

/// A checker that proves all crates at once, and says much.
const CHECKER: &str = r#"#!/bin/sh
for crate in whole float coefficients layout frame block clip image doilycairn; do
    echo "fn $crate::something: proved"
    echo "library whole: modules loaded=3 checked=0"
    echo "crate $crate: modules loaded=9 checked=1"
    echo "logic=proved functions=1"
done
"#;

/// Crates, as crates.txt has them; not all are the library's.
const CRATES: &str = "# NAME: the crates that it knows.
whole:
float:
float_list: float replay
coefficients: whole float
frame: whole
block: whole
layout: whole
clip: whole layout frame
image: whole layout block
round_trip: coefficients layout clip image frame block whole
doilycairn staticlib: coefficients layout frame block clip image whole
";

/// A builder that builds nothing; to run is to copy the files that are ready.
const BUILDER: &str = r#"#!/bin/sh
case $1 in
build) ;;
run) cp ready/* target/demo; echo "  refused on the way: this (refusal 3)" ;;
esac
"#;

fn script(folder: &Folder, name: &str, text: &str) {
    folder.write(name, text);
    fs::set_permissions(folder.path(name), Permissions::from_mode(0o755)).unwrap();
}

/// A folder with all that ./demo reads.
fn folder(checker: &str) -> Folder {
    let folder = Folder::new();
    for name in ["bin", "docs", "ready", "built", "built/release", "crates", "crates/doilycairn"] {
        fs::create_dir(folder.path(name)).unwrap();
    }
    script(&folder, "demo", include_str!("../../../demo"));
    folder.write("crates.txt", CRATES);
    folder.write(
        "docs/PROVING.md",
        "| crate | seconds |\n|---|---|\n| whole | 3 |\n| float | — |\n| coefficients | 82 | 1 |\n",
    );
    script(&folder, "bin/rt", checker);
    script(&folder, "bin/cargo", BUILDER);
    symlink(TOOL, folder.path("built/release/doilycairn")).unwrap();
    let (clip, mut altered) = (sound(5000, 1), sound(5000, 1));
    altered[100] += 9000;
    folder.write("ready/clip.wav", wav(&clip, 32_000));
    folder.write("ready/clip.dspc", image(&clip, 32_000, 4096));
    let coefficients = Coefficients::measure(&clip).unwrap();
    let other = image_with(&altered, 32_000, 4096, coefficients, History::default());
    folder.write("ready/altered.dspc", other);
    folder
}

fn demo(folder: &Folder) -> Output {
    let path = format!("{}:{}", folder.path("bin").display(), std::env::var("PATH").unwrap());
    let mut demo = Command::new(folder.path("demo"));
    demo.env("PATH", path).env("CARGO_TARGET_DIR", "built").env_remove("DOILYCAIRN_LIB_DIR");
    demo.stdin(Stdio::null()).output().unwrap()
}

#[test]
fn it_tells_which_crate_is_proved_and_what_to_open() {
    let folder = folder(CHECKER);
    let output = demo(&folder);
    let [out, err] = [output.stdout, output.stderr].map(|text| String::from_utf8(text).unwrap());
    assert!(output.status.success(), "{out}{err}");
    let crates: Vec<&str> = out.lines().filter(|line| line.starts_with("crate ")).collect();
    assert_eq!(crates.len(), 9, "{out}");
    assert_eq!(crates[0], "crate 1 of 9: whole, about 3 s");
    assert_eq!(crates[2], "crate 3 of 9: coefficients, about 82 s");
    // In the order in which the checker takes them.
    assert_eq!(crates[3], "crate 4 of 9: layout");
    assert!(crates[8] == "crate 9 of 9: doilycairn" && !out.contains("something"), "{out}");
    assert!(
        String::from_utf8(folder.read("target/demo.log")).unwrap().contains("::something: proved")
    );
    assert!(out.contains("refused on purpose, on the way: this"));
    assert_eq!(out.matches("(on purpose: this call is to end with status ").count(), 3);
    assert_eq!(out.matches("\nthe same: ").count(), 1, "{out}");
    assert_eq!(out.matches("\nthe same sound: ").count(), 1, "{out}");
    assert!(out.contains("\ndifferent: block size 4,096 and 1,000\n"), "{out}");
    for name in ["tool.svg", "clip.wav", "tool-decoded.wav"] {
        assert!(
            out.contains(&format!("  target/demo/{name} "))
                && folder.has(&format!("target/demo/{name}"))
        );
    }
}

#[test]
fn a_proof_that_fails_is_told() {
    let folder =
        folder("#!/bin/sh\necho 'fn whole::something: proved'\necho 'float: error'\nexit 1\n");
    let output = demo(&folder);
    let err = String::from_utf8(output.stderr).unwrap();
    assert_eq!(output.status.code(), Some(1));
    assert!(
        err.contains("float: error") && err.contains("not proved: see target/demo.log"),
        "{err}"
    );
}
