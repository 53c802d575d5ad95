//! Finds libdoilycairn.a: in the folder that DOILYCAIRN_LIB_DIR names, else in
//! ../crates/doilycairn/out.

use std::env;
use std::path::{Path, PathBuf};

const VARIABLE: &str = "DOILYCAIRN_LIB_DIR";
const ARCHIVE: &str = "libdoilycairn.a";

/// The folder to look in. A relative path counts from the folder of this crate.
fn folder() -> PathBuf {
    let here = PathBuf::from(env::var_os("CARGO_MANIFEST_DIR").expect("cargo sets it"));
    match env::var_os(VARIABLE) {
        Some(named) => here.join(named),
        None => here.join("../crates/doilycairn/out"),
    }
}

/// Ends the build with what to do.
fn missing(archive: &Path) -> ! {
    eprintln!("error: there is no {}", archive.display());
    eprintln!("Build it with `make lib` in the repository's root,");
    eprintln!("or set {VARIABLE} to the folder that has {ARCHIVE}.");
    std::process::exit(1)
}

fn main() {
    let folder = folder();
    let archive = folder.join(ARCHIVE);
    println!("cargo::rerun-if-env-changed={VARIABLE}");
    println!("cargo::rerun-if-changed={}", archive.display());
    if !archive.is_file() {
        missing(&archive);
    }
    println!("cargo::rustc-link-search=native={}", folder.display());
    println!("cargo::rustc-link-lib=static=doilycairn");
}
