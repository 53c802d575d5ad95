//! Nine files of unplug, unchanged, over thin shims. build.rs puts them together.

// The copied files have parts that nothing here calls.
#![allow(dead_code, clippy::all)]

include!(concat!(env!("OUT_DIR"), "/tree/root.rs"));
