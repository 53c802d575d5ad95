// The modules that stand at the root of unplug.
pub mod audio;
pub mod common;
