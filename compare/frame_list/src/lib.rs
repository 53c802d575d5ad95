//! Lists of frames, and the Rust's answers.
//!
//! A line of a list, in hexadecimal digits: the number of real samples (2), the newest and the older
//! history sample (4 each), fourteen samples and sixteen coefficients (4 each, joined).
//!
//! A line of the answers: the eight bytes, the passes (2), the newest and the older history sample
//! after the real samples; or `refused 7` where a pair is beyond the limit.

mod cases;
mod older_banks;
mod random;

pub use cases::cases;
pub use random::random_frame;

use oracle::list::Listed;
use oracle::pairs::are_within_limit;
use oracle::{Coefficients, History, encode_frame, encode_frame_bytes};

/// The lowest and the highest sample.
const LOW: i16 = i16::MIN;
const HIGH: i16 = i16::MAX;

/// A frame of `count` real samples, padded with zeros.
#[derive(Debug, Clone, PartialEq)]
pub struct Case {
    pub count: usize,
    pub history: History,
    pub samples: [i16; 14],
    pub coefficients: Coefficients,
}

impl Case {
    /// A frame of the samples given.
    fn new(samples: &[i16], history: History, coefficients: Coefficients) -> Self {
        let mut padded = [0; 14];
        padded[..samples.len()].copy_from_slice(samples);
        Self { count: samples.len(), history, samples: padded, coefficients }
    }

    /// Whether a pair is beyond document 02's limit.
    pub fn is_refused(&self) -> bool {
        !are_within_limit(&self.coefficients)
    }
}

impl Listed for Case {
    fn inputs(&self) -> String {
        let [newest, older] = self.history.map(|sample| digits(&[sample]));
        let (samples, coefficients) = (digits(&self.samples), digits(&self.coefficients));
        format!("{:02x} {newest} {older} {samples} {coefficients}\n", self.count)
    }

    fn answers(&self) -> String {
        if self.is_refused() {
            return "refused 7\n".into();
        }
        let (bytes, passes, _) = encode_frame(self.history, &self.samples, &self.coefficients);
        let real = &self.samples[..self.count];
        let (short, history) = encode_frame_bytes(self.history, real, &self.coefficients);
        assert_eq!(short, bytes[..short.len()]);
        let bytes: String = bytes.iter().map(|byte| format!("{byte:02x}")).collect();
        let [newest, older] = history.map(|sample| digits(&[sample]));
        format!("{bytes} {passes:02x} {newest} {older}\n")
    }
}

/// Four digits a number.
fn digits(numbers: &[i16]) -> String {
    numbers.iter().map(|number| format!("{number:04x}")).collect()
}
