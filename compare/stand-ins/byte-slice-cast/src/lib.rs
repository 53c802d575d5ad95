//! Stands in for the byte-slice-cast crate. The names are there so that format.rs builds; no
//! comparison casts samples, so each cast panics.

/// A value that may be seen as bytes.
pub trait ToByteSlice {}

/// A value that may be seen as bytes and changed through them.
pub trait ToMutByteSlice {}

/// A value that bytes may be seen as.
pub trait FromByteSlice {}

/// Bytes that do not fit the wanted value.
#[derive(Debug)]
pub struct Error;

/// Sees values as bytes.
pub trait AsByteSlice {
    fn as_byte_slice(&self) -> &[u8];
}

impl<T: ToByteSlice> AsByteSlice for [T] {
    fn as_byte_slice(&self) -> &[u8] {
        left_out()
    }
}

/// Sees values as bytes that may be changed.
pub trait AsMutByteSlice {
    fn as_mut_byte_slice(&mut self) -> &mut [u8];
}

impl<T: ToMutByteSlice> AsMutByteSlice for [T] {
    fn as_mut_byte_slice(&mut self) -> &mut [u8] {
        left_out()
    }
}

/// Sees bytes as values.
pub trait AsSliceOf {
    fn as_slice_of<T: FromByteSlice>(&self) -> Result<&[T], Error>;
}

impl AsSliceOf for [u8] {
    fn as_slice_of<T: FromByteSlice>(&self) -> Result<&[T], Error> {
        left_out()
    }
}

/// Sees bytes as values that may be changed.
pub trait AsMutSliceOf {
    fn as_mut_slice_of<T: FromByteSlice>(&mut self) -> Result<&mut [T], Error>;
}

impl AsMutSliceOf for [u8] {
    fn as_mut_slice_of<T: FromByteSlice>(&mut self) -> Result<&mut [T], Error> {
        left_out()
    }
}

fn left_out() -> ! {
    unimplemented!("casts of samples are not part of the comparison")
}
