//! Stands in for unplug's endian.rs. No comparison reads or writes PCM, so each call is refused.

use byteorder::{BE, LE};
use std::io::{ErrorKind, Read, Result, Write};

/// A byte order that can be compared with the machine's own.
pub trait IsNative {}

impl IsNative for BE {}
impl IsNative for LE {}

/// Values whose byte order can be changed.
pub trait ConvertEndian<T> {}

/// Reads values from a stream.
pub trait ReadValuesExt: Read {
    fn read_values_to_end<E, T>(&mut self) -> Result<Vec<T>> {
        Err(ErrorKind::Unsupported.into())
    }
}

impl<R: Read + ?Sized> ReadValuesExt for R {}

/// Writes values to a stream.
pub trait WriteValuesExt: Write {
    fn write_all_values<E, T>(&mut self, _values: &[T]) -> Result<()> {
        Err(ErrorKind::Unsupported.into())
    }
}

impl<W: Write + ?Sized> WriteValuesExt for W {}
