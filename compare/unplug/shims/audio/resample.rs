//! Stands in for unplug's resample.rs. No comparison resamples.

use super::ReadSamples;
use super::format::pcm::AnyPcm;
use std::marker::PhantomData;

/// A stream at another rate.
pub struct Resample<'r, 's, F: AnyPcm> {
    _marker: PhantomData<(&'r (), &'s (), F)>,
}

impl<'r, 's, F: AnyPcm> Resample<'r, 's, F> {
    pub fn new(_reader: impl ReadSamples<'s, Format = F> + 'r, _rate: u32) -> Self {
        unimplemented!("resampling is not part of the comparison")
    }
}
