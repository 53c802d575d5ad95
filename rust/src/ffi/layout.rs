//! Layouts, version, limits and codes are those that the C compiler makes of include/doilycairn.h.

use super::*;
use crate::{BLOCK_SIZES, MAX_PAIR_SUM, MAX_SAMPLES, Refusal};
use std::env;
use std::fmt::Write;
use std::mem::{offset_of, size_of};
use std::path::Path;
use std::process::Command;

/// The name of a field in C.
macro_rules! name_in_c {
    (looped) => {
        "loop"
    };
    ($field:ident) => {
        stringify!($field)
    };
}

/// Writes a struct's size and its fields' offsets, as layout.c does.
macro_rules! layout {
    ($text:ident, $name:literal, $type:ty, $($field:ident),+) => {
        writeln!($text, "{} {}", $name, size_of::<$type>()).unwrap();
        $(writeln!($text, "{}.{} {}", $name, name_in_c!($field), offset_of!($type, $field)).unwrap();)+
    };
}

fn rust_layouts() -> String {
    let mut text = String::new();
    layout!(text, "history", History, newest, older);
    layout!(text, "calculator", Calculator, samples, records, history);
    layout!(text, "context", FrameContext, predictor_and_scale, last_samples);
    layout!(text, "loop", LoopState, start, end, present);
    layout!(
        text,
        "encoder",
        EncoderState,
        total,
        rate,
        block,
        gain,
        coefficients,
        fed,
        history,
        frame,
        passes,
        closed,
        looped,
        loop_context
    );
    layout!(text, "head", Head, total, rate, block, gain, coefficients, blocks);
    layout!(text, "processed", Processed, code, calculator);
    layout!(text, "finished", Finished, code, coefficients, calculator);
    layout!(text, "frame", Frame, code, bytes, passes, history);
    layout!(text, "encoding", Encoding, code, encoder);
    layout!(text, "opening", Opening, code, entry, head, looped, loop_context);
    layout!(text, "body", Body, code, entry, offset, bytes, nibbles, context);
    layout!(text, "playback", Playback, code, entry, samples, context);
    layout!(text, "part", Part, code, entry, samples, blocks);
    layout!(text, "turns", Turns, code, entry, samples);
    layout!(text, "comparison", Comparison, code, entry, same);
    layout!(text, "written", Written, code, entry, bytes);
    layout!(text, "joining", Joining, code, nibbles);
    text
}

/// The version, the limits, and the refusals under their names in C.
fn rust_numbers() -> String {
    let mut text = String::new();
    writeln!(text, "VERSION_MAJOR {}", env!("CARGO_PKG_VERSION_MAJOR")).unwrap();
    writeln!(text, "VERSION_MINOR {}", env!("CARGO_PKG_VERSION_MINOR")).unwrap();
    writeln!(text, "VERSION_PATCH {}", env!("CARGO_PKG_VERSION_PATCH")).unwrap();
    writeln!(text, "MAX_PAIR_SUM {MAX_PAIR_SUM}").unwrap();
    writeln!(text, "MAX_SAMPLES {MAX_SAMPLES}").unwrap();
    writeln!(text, "MIN_BLOCK_SIZE {}", BLOCK_SIZES.start()).unwrap();
    writeln!(text, "MAX_BLOCK_SIZE {}", BLOCK_SIZES.end()).unwrap();
    for refusal in Refusal::NUMBERS.iter().filter_map(|number| Refusal::from_number(*number, 0)) {
        let shown = format!("{refusal:?}");
        let name = shown.split(' ').next().unwrap();
        for (i, letter) in name.chars().enumerate() {
            if i > 0 && letter.is_ascii_uppercase() {
                text.push('_');
            }
            text.push(letter.to_ascii_uppercase());
        }
        writeln!(text, " {}", refusal.number()).unwrap();
    }
    text
}

/// What layout.c writes, built by the C compiler that CC names, or cc.
fn c_layouts() -> String {
    let here = Path::new(env!("CARGO_MANIFEST_DIR"));
    let program = env::temp_dir().join(format!("doilycairn-layout-{}", std::process::id()));
    let compiler = env::var_os("CC").unwrap_or("cc".into());
    let built = Command::new(&compiler)
        .args(["-std=c11", "-Wall", "-Wextra", "-pedantic", "-Werror", "-I"])
        .arg(here.join("../include"))
        .arg(here.join("src/ffi/layout.c"))
        .arg("-o")
        .arg(&program)
        .status()
        .expect("this test needs a C compiler");
    assert!(built.success());
    let output = Command::new(&program).output().unwrap();
    std::fs::remove_file(&program).unwrap();
    String::from_utf8(output.stdout).unwrap()
}

#[test]
fn layouts_version_limits_and_codes_are_those_of_the_header() {
    assert_eq!(rust_layouts() + &rust_numbers(), c_layouts());
}
