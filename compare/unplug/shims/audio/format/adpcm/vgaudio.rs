//! Stands in for unplug's vgaudio.rs, and lets the comparison reach what lies behind it.

pub mod coefficients;
pub mod encode;

use super::{Coefficients, GcAdpcm, Info};
use coefficients::{PcmHistory, Vec3};

impl GcAdpcm {
    /// Runs `process_frame` on a history and gives the record, if there is one.
    pub fn process_frame(history: &mut PcmHistory) -> Option<Vec3> {
        let mut records = vec![];
        coefficients::process_frame(history, &mut records);
        records.pop()
    }

    /// Runs `finish` on records.
    pub fn finish(records: &[Vec3]) -> Coefficients {
        coefficients::finish(records)
    }

    /// Runs `encode` on samples.
    pub fn encode(samples: &[i16], info: &mut Info) -> Vec<u8> {
        encode::encode(samples, info)
    }
}
