//! Measuring: records and coefficients.

use crate::Coefficients;
use unplug::audio::format::GcAdpcm;
use unplug::audio::format::adpcm::{CoefficientCalculator, SAMPLES_PER_FRAME};

/// Entries 1 and 2 of one of the Rust's records; entry 0 is always 1.
pub type Record = [f64; 2];

/// What measuring gives.
#[derive(Debug, Clone, PartialEq)]
pub struct Measured {
    pub records: Vec<Record>,
    pub coefficients: Coefficients,
}

/// Measures a clip that comes in pieces.
///
/// With no record the Rust divides 0 by 0, but a vector that no record joins is set anew from
/// zeros in every round, so its own answer is sixteen zeros.
pub fn measure(pieces: &[&[i16]]) -> Measured {
    Measured { records: records(pieces), coefficients: coefficients(pieces) }
}

/// The coefficients, through the calculator.
fn coefficients(pieces: &[&[i16]]) -> Coefficients {
    let mut calculator = CoefficientCalculator::new();
    for piece in pieces {
        calculator.process(piece);
    }
    calculator.finish()
}

/// The records of the frames, the last of them filled with zeros.
fn records(pieces: &[&[i16]]) -> Vec<Record> {
    let mut history = [0; 2 * SAMPLES_PER_FRAME];
    let samples = pieces.concat();
    let mut records = vec![];
    for frame in samples.chunks(SAMPLES_PER_FRAME) {
        let (now, rest) = history[SAMPLES_PER_FRAME..].split_at_mut(frame.len());
        now.copy_from_slice(frame);
        rest.fill(0);
        records.extend(process_frame(&mut history));
    }
    records
}

/// Analyses the second half of a history and moves it to the first half.
pub fn process_frame(history: &mut [i16; 28]) -> Option<Record> {
    let record = GcAdpcm::process_frame(history)?;
    assert_eq!(record[0], 1.0);
    Some([record[1], record[2]])
}

/// The coefficients of records alone.
pub fn coefficients_of_records(records: &[Record]) -> Coefficients {
    let whole: Vec<_> = records.iter().map(|record| [1.0, record[0], record[1]]).collect();
    GcAdpcm::finish(&whole)
}
