//! Stands in for unplug's convert.rs. No format is converted to another, so nothing has this trait.

use super::DynamicFormat;
use crate::audio::ReadSamples;

/// A format that can be converted to another.
pub trait Convert<To: DynamicFormat>: DynamicFormat {
    fn convert<'r, 's: 'r>(
        reader: Box<dyn ReadSamples<'s, Format = Self> + 'r>,
    ) -> Box<dyn ReadSamples<'s, Format = To> + 'r>;
}
