//! Stands in for unplug's pcm.rs: 16-bit samples, and the bare names of the other formats.

use super::{Cast, DataCow, Format, FormatTag, PcmFormat, StaticFormat, StdResult};
use byteorder::{BE, LE};

/// Any PCM format.
pub trait AnyPcm: FormatTag {}

pub enum PcmS8 {}
pub enum PcmU16Le {}
pub enum PcmS24Le {}
pub enum PcmS32Le {}
pub enum PcmF32Le {}

/// Defines a format of 16-bit signed samples that may be seen as the other one.
macro_rules! pcm_s16 {
    ($name:ident, $endian:ty, $other:ty) => {
        #[derive(Copy, Clone)]
        pub struct $name;

        impl FormatTag for $name {
            type Data = i16;
            type Params = ();
        }

        impl StaticFormat for $name {
            const FORMAT: Format = Format::$name;
            fn allocate(len: usize) -> Vec<i16> {
                vec![0; len]
            }
        }

        impl PcmFormat for $name {
            type Endian = $endian;
        }

        impl Cast<$other> for $name {
            fn cast_params(params: ()) -> StdResult<(), ()> {
                Ok(params)
            }
            fn cast_data(data: DataCow<'_, Self>) -> DataCow<'_, $other> {
                data
            }
        }
    };
}

pcm_s16!(PcmS16Le, LE, PcmS16Be);
pcm_s16!(PcmS16Be, BE, PcmS16Le);
