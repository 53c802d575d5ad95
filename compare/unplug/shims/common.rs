//! Stands in for unplug's common.rs: its traits, its re-exports, and the counted `clamp_i16`.

pub mod endian;
mod math;

pub use math::{align, clamp_cast};

#[cfg(not(feature = "count"))]
pub use math::clamp_i16;

#[cfg(feature = "count")]
pub use counted::{clamp_i16, clamps_in};

/// A value that can be read from a stream.
pub trait ReadFrom<R: ?Sized>: Sized {
    type Error;
    fn read_from(reader: &mut R) -> Result<Self, Self::Error>;
}

/// A value that can be written to a stream.
pub trait WriteTo<W: ?Sized> {
    type Error;
    fn write_to(&self, writer: &mut W) -> Result<(), Self::Error>;
}

#[cfg(feature = "count")]
mod counted {
    use std::cell::Cell;

    thread_local! {
        /// How many calls of `clamp_i16` are left on this thread.
        static LEFT: Cell<u64> = const { Cell::new(u64::MAX) };
    }

    /// Takes the limit away at the end, also after a panic.
    struct Unlimited;

    impl Drop for Unlimited {
        fn drop(&mut self) {
            LEFT.set(u64::MAX);
        }
    }

    /// Counts the call and runs unplug's `clamp_i16`.
    pub fn clamp_i16<T>(value: T) -> i16
    where
        T: Ord + TryInto<i16> + From<i16> + Copy,
    {
        LEFT.set(LEFT.get().checked_sub(1).expect("too many calls of clamp_i16"));
        super::math::clamp_i16(value)
    }

    /// Runs `run`; gives its answer and how often it called `clamp_i16` on this thread.
    /// Panics at more than `limit` calls.
    pub fn clamps_in<T>(limit: u64, run: impl FnOnce() -> T) -> (T, u64) {
        let _end = Unlimited;
        LEFT.set(limit);
        let answer = run();
        (answer, limit - LEFT.get())
    }
}
