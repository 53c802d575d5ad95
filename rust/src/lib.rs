//! DSP ADPCM clips, the sound format of the GameCube and the Wii, from samples to blocks and back: safe calls of `libdoilycairn.a`.
//!
//! A clip is measured (for its sixteen coefficients), started, fed in pieces of any length and closed; what that leaves is an image,
//! which opens, plays and compares. It does not matter how the clip is cut into pieces. A clip may have a [`Loop`], which its image then plays
//! any number of times over ([`Image::play_loop`]). An image is exported to a `.dsp` file, which studios exchange, by [`Image::to_dsp`], and such a
//! file is imported by [`from_dsp`].
//!
//! ```
//! use doilycairn::{Coefficients, Encoder, History, Image, Start};
//!
//! let clip: Vec<i16> = (0..5000).map(|i| (f64::from(i) * 0.05).sin() * 9000.0).map(|s| s as i16).collect();
//! let start = Start {
//!     total: 5000,
//!     rate: 32_000,
//!     block_size: 0x400,
//!     gain: 0,
//!     coefficients: Coefficients::measure(&clip)?,
//!     history: History::default(),
//!     looped: None,
//! };
//! let mut encoder = Encoder::start(&start)?;
//! encoder.feed(&clip[..1234])?;
//! encoder.feed(&clip[1234..])?;
//! encoder.close()?;
//!
//! let image = Image::open(encoder.image())?;
//! assert_eq!(image.play()?.len(), clip.len());
//! # Ok::<(), doilycairn::Refusal>(())
//! ```
//!
//! Every call is a function of its arguments; there is no global state, and all types are `Send` and `Sync`. A refused call
//! gives a [`Refusal`] and alters neither state nor buffer; where a block's entry in an image's table is bad, or a block keeps an image from being
//! exported, the refusal names the block. States
//! ([`Calculator`], [`EncoderState`]) are plain values: undo is keeping the older one, and going on with the same buffer. What the library's
//! calls do is proved; this crate passes them slices with their lengths and turns codes into [`Refusal`]s.
//!
//! # What a state goes with
//!
//! A state belongs to the store or image that it was measured or fed with. No call can test that, nor that a state was not altered in a way that its
//! numbers do not show: [`Refusal::InvalidState`] finds numbers that contradict each other, and no more. With another buffer, or with an altered state that
//! passes, every call is still safe and does what its definition says of what it was given, but what comes out is no clip's.
//!
//! A NaN in a store that others wrote, or an infinity or a huge number that makes one, gives a coefficient of -32,768. Starting takes it, and refuses it
//! ([`Refusal::CoefficientOutside`]) only where both of a pair are: look for it before starting. Other wrong numbers are not found so.
//!
//! # The floating-point environment
//!
//! Measuring rounds to the nearest number, as Rust programs do unless foreign code has set another rounding (`fesetround` of C). Then records and
//! coefficients come out differently. Rust itself takes the default environment as given. The other calls use no floating point. Flushing subnormal
//! numbers to zero does not matter for what [`Calculator::process`] has measured.
//!
//! # Linking
//!
//! The build looks for `libdoilycairn.a` in the folder that `DOILYCAIRN_LIB_DIR` names (a relative path counts from this crate's folder), else in
//! `../crates/doilycairn/out`, where `make lib` puts it. The archive is for x86-64 Linux.

mod block;
mod coefficients;
mod encoder;
mod ffi;
mod frame;
mod image;
mod loops;
mod measure;
mod refusal;
mod samples;

pub use block::{
    Block, FrameContext, Played, address_to_sample, join, play_bytes, sample_to_address,
};
pub use coefficients::Coefficients;
pub use encoder::{Encoder, EncoderState, Start, image_size, loop_image_size};
pub use frame::{EncodedFrame, History, encode_frame};
pub use image::{
    Head, Image, Part, dsp_image_size, dsp_size, from_dsp, from_dsp_into, same, sounds_same,
};
pub use loops::{Loop, LoopState};
pub use measure::{Calculator, Measure, Store, store_size};
pub use refusal::Refusal;
pub use samples::Samples;

/// The longest clip, in samples.
pub const MAX_SAMPLES: u32 = 14_680_064;

/// The largest |c0| + |c1| of a pair of coefficients that encoding takes.
pub const MAX_PAIR_SUM: u32 = 61_440;

/// The limits of a block size, in bytes.
pub const BLOCK_SIZES: std::ops::RangeInclusive<u32> = 8..=65_536;

/// The code in docs/EDITOR.md, run as tests.
#[cfg(doctest)]
#[doc = include_str!("../../docs/EDITOR.md")]
struct Editor;
