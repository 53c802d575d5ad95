//! Counts encoded frames, and those that end at exponent 12, the largest.

use oracle::Coefficients;
use oracle::pairs::are_of_measured_size;
use std::fmt;

/// Frames of any coefficients, and those with an older bank: one that has a coefficient larger than measured ones.
#[derive(Debug, Default)]
pub struct FrameCount {
    pub all: u64,
    pub all_at_12: u64,
    pub older: u64,
    pub older_at_12: u64,
}

impl FrameCount {
    /// Counts a frame by its header byte.
    pub fn count(&mut self, header: u8, coefficients: &Coefficients) {
        let at_12 = u64::from(header & 15 == 12);
        self.all += 1;
        self.all_at_12 += at_12;
        if !are_of_measured_size(coefficients) {
            self.older += 1;
            self.older_at_12 += at_12;
        }
    }
}

impl fmt::Display for FrameCount {
    fn fmt(&self, f: &mut fmt::Formatter) -> fmt::Result {
        let Self { all, all_at_12, older, older_at_12 } = self;
        write!(f, "{all} frames encoded, {all_at_12} of them at exponent 12; ")?;
        write!(f, "{older} with an older bank, {older_at_12} of them at exponent 12")
    }
}
