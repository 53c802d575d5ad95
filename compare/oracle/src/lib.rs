//! Plain calls of the unchanged Rust, for comparison.

mod block;
mod caught;
mod encode;
mod info;
pub mod list;
mod measure;
mod older_bank;
pub mod pairs;
mod pieces;
mod quantise;
pub mod random;

#[cfg(feature = "count")]
pub mod self_run;
#[cfg(feature = "count")]
pub mod text;

pub use block::{address_to_sample, decode, join, join_all, sample_to_address};
pub use caught::caught;
pub use encode::{Block, encode_blocks, encode_frame_bytes};
#[cfg(feature = "count")]
pub use encode::{Encoded, encode, encode_frame};
pub use info::{context_bytes, info_bytes, read_context, read_info};
pub use measure::{Measured, Record, coefficients_of_records, measure, process_frame};
pub use pieces::Pieces;
pub use quantise::{quantised, unclamped};
pub use unplug::audio::Error;
pub use unplug::audio::format::adpcm::{Coefficients, FrameContext, SAMPLES_PER_FRAME};

/// The two samples before a place: the newest, then the older one.
pub type History = [i16; 2];
