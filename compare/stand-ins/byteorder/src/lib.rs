//! Stands in for the byteorder crate: 16-bit numbers in either byte order.

use std::io::{Read, Result, Write};

/// Big-endian.
pub enum BE {}

/// Little-endian.
pub enum LE {}

/// How a 16-bit number stands in two bytes.
pub trait ByteOrder {
    /// Reads a number.
    fn get(bytes: [u8; 2]) -> u16;

    /// Writes a number.
    fn put(value: u16) -> [u8; 2];

    /// Writes numbers one after the other; the lengths must match.
    fn write_i16_into(values: &[i16], bytes: &mut [u8]) {
        assert_eq!(bytes.len(), 2 * values.len());
        for (value, place) in values.iter().zip(bytes.chunks_exact_mut(2)) {
            place.copy_from_slice(&Self::put(*value as u16));
        }
    }
}

impl ByteOrder for BE {
    fn get(bytes: [u8; 2]) -> u16 {
        u16::from_be_bytes(bytes)
    }
    fn put(value: u16) -> [u8; 2] {
        value.to_be_bytes()
    }
}

impl ByteOrder for LE {
    fn get(bytes: [u8; 2]) -> u16 {
        u16::from_le_bytes(bytes)
    }
    fn put(value: u16) -> [u8; 2] {
        value.to_le_bytes()
    }
}

/// Reads numbers from a byte stream.
pub trait ReadBytesExt: Read {
    /// Reads one unsigned number.
    fn read_u16<T: ByteOrder>(&mut self) -> Result<u16> {
        let mut bytes = [0; 2];
        self.read_exact(&mut bytes)?;
        Ok(T::get(bytes))
    }

    /// Fills `values` with signed numbers.
    fn read_i16_into<T: ByteOrder>(&mut self, values: &mut [i16]) -> Result<()> {
        for value in values {
            *value = self.read_u16::<T>()? as i16;
        }
        Ok(())
    }
}

impl<R: Read + ?Sized> ReadBytesExt for R {}

/// Writes numbers to a byte stream.
pub trait WriteBytesExt: Write {
    /// Writes one unsigned number.
    fn write_u16<T: ByteOrder>(&mut self, value: u16) -> Result<()> {
        self.write_all(&T::put(value))
    }

    /// Writes one signed number.
    fn write_i16<T: ByteOrder>(&mut self, value: i16) -> Result<()> {
        self.write_u16::<T>(value as u16)
    }
}

impl<W: Write + ?Sized> WriteBytesExt for W {}
