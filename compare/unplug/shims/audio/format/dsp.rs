//! Stands in for unplug's dsp.rs. Only the name is used.

/// A sample format of the DSP.
pub enum DspFormat {}
