//! Blocks: playing, joining, addresses.

use crate::pieces::Pieces;
use crate::{Coefficients, Error};
use std::borrow::Cow;
use unplug::audio::format::ExtendSamples;
use unplug::audio::format::adpcm::{Decoder, FrameContext, GcAdpcm, Info};
use unplug::audio::{ReadSamples, Samples};

/// Plays a block of `len` nibbles through `Decoder`: its samples, and the context after it.
pub fn decode(
    bytes: &[u8],
    len: usize,
    coefficients: &Coefficients,
    context: FrameContext,
) -> (Vec<i16>, FrameContext) {
    let params = Info { coefficients: *coefficients, gain: 0, context };
    let block = Samples { channels: 1, rate: 1, len, data: bytes.into(), params };
    let mut decoder = Decoder::new(Pieces::new([block]));
    let played = decoder.read_samples().unwrap().unwrap();
    assert_eq!(played.len, played.data.len());
    (played.data.into_owned(), decoder.context())
}

/// Joins two blocks' bytes through `extend_samples`.
pub fn join(
    first: &[u8],
    first_coefficients: &Coefficients,
    second: &[u8],
    second_coefficients: &Coefficients,
) -> Result<Vec<u8>, Error> {
    let mut bytes = Cow::Borrowed(first);
    let mut params = Info { coefficients: *first_coefficients, ..Info::default() };
    let others = Info { coefficients: *second_coefficients, ..Info::default() };
    GcAdpcm::extend_samples(&mut bytes, &mut params, second, &others)?;
    Ok(bytes.into_owned())
}

/// Joins the bytes of blocks with these coefficients, in their order, through `extend_samples`.
pub fn join_all<'b>(
    bodies: impl IntoIterator<Item = &'b [u8]>,
    coefficients: &Coefficients,
) -> Vec<u8> {
    let mut bytes = Cow::Owned(vec![]);
    let mut params = Info { coefficients: *coefficients, ..Info::default() };
    let others = params;
    for body in bodies {
        GcAdpcm::extend_samples(&mut bytes, &mut params, body, &others).unwrap();
    }
    bytes.into_owned()
}

/// The number of the sample at an address.
pub fn address_to_sample(address: usize) -> usize {
    GcAdpcm::address_to_sample(address)
}

/// The address of a sample.
pub fn sample_to_address(sample: usize) -> usize {
    GcAdpcm::sample_to_address(sample)
}
