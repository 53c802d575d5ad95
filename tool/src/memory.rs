//! Memory for long clips: what cannot be had is a failure, and not the end of the program.

use crate::failure::Failure;
use crate::text::count;
use std::io::{self, Write};

/// So many zeros.
pub fn zeros<T: Clone + Default>(len: usize) -> Result<Vec<T>, Failure> {
    let mut list = room(len)?;
    list.resize(len, T::default());
    Ok(list)
}

/// An empty list with room for so many.
pub fn room<T>(len: usize) -> Result<Vec<T>, Failure> {
    let mut list = vec![];
    list.try_reserve_exact(len).map_err(|_| short((len * size_of::<T>()) as u64))?;
    Ok(list)
}

/// Text that is kept; writing fails where there is no room for it.
#[derive(Default)]
pub struct Text(pub Vec<u8>);

impl Write for Text {
    fn write(&mut self, bytes: &[u8]) -> io::Result<usize> {
        self.0.try_reserve(bytes.len()).map_err(|_| io::ErrorKind::OutOfMemory)?;
        self.0.extend_from_slice(bytes);
        Ok(bytes.len())
    }

    fn flush(&mut self) -> io::Result<()> {
        Ok(())
    }
}

/// So many bytes are not to be had.
pub fn short(bytes: u64) -> Failure {
    Failure::memory(format!("memory is short: {} more bytes cannot be had", count(bytes)))
}
