//! Puts the source tree together in the build's own folder: the nine files as they are, and our
//! shims where the rest of unplug would stand.

use std::path::{Path, PathBuf};
use std::{env, fs};

/// The files that are copied, from `unplug/src` of the copy of unplug that UNPLUG_SRC names.
const COPIED: [&str; 9] = [
    "audio/cue.rs",
    "audio/format.rs",
    "audio/format/adpcm.rs",
    "audio/format/adpcm/decode.rs",
    "audio/format/adpcm/encode.rs",
    "audio/format/adpcm/vgaudio/coefficients.rs",
    "audio/format/adpcm/vgaudio/encode.rs",
    "audio/sample.rs",
    "common/math.rs",
];

/// The files of our own, from `shims`.
const SHIMS: [&str; 9] = [
    "root.rs",
    "audio.rs",
    "audio/resample.rs",
    "audio/format/adpcm/vgaudio.rs",
    "audio/format/convert.rs",
    "audio/format/dsp.rs",
    "audio/format/pcm.rs",
    "common.rs",
    "common/endian.rs",
];

fn main() {
    let package = folder("CARGO_MANIFEST_DIR");
    let tree = folder("OUT_DIR").join("tree");
    println!("cargo::rerun-if-changed=build.rs");
    println!("cargo::rerun-if-env-changed=UNPLUG_SRC");
    copy(&COPIED, &unplug_src(&package).join("unplug/src"), &tree);
    copy(&SHIMS, &package.join("shims"), &tree);
}

/// The folder that the variable `name` names.
fn folder(name: &str) -> PathBuf {
    PathBuf::from(env::var_os(name).unwrap())
}

/// The copy of unplug that UNPLUG_SRC names; a relative path counts from the repository's root.
fn unplug_src(package: &Path) -> PathBuf {
    match env::var_os("UNPLUG_SRC").filter(|name| !name.is_empty()) {
        Some(given) => package.join("../..").join(given),
        None => missing("UNPLUG_SRC is not set"),
    }
}

/// Ends the build with what is missing and what to do.
fn missing(what: &str) -> ! {
    eprintln!("error: {what}");
    eprintln!("This package compares with the Rust codec of https://github.com/adierking/unplug.");
    eprintln!("Set UNPLUG_SRC to the folder of a copy of that repository at commit f6268d160b,");
    eprintln!("the one that holds unplug/src. compare/README.md says which files are read.");
    std::process::exit(1)
}

/// Copies the files named, byte for byte.
fn copy(names: &[&str], from: &Path, to: &Path) {
    for name in names {
        let (source, place) = (from.join(name), to.join(name));
        println!("cargo::rerun-if-changed={}", source.display());
        let bytes = fs::read(&source)
            .unwrap_or_else(|error| missing(&format!("{}: {error}", source.display())));
        fs::create_dir_all(place.parent().unwrap()).unwrap();
        fs::write(place, bytes).unwrap();
    }
}
