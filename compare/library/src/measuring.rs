//! Measuring as document 01 says, each frame analysed by the Rust.

use crate::convert::number;
use crate::tally::Tally;
use doilycairn::Calculator;
use oracle::{Coefficients, Record, SAMPLES_PER_FRAME, coefficients_of_records, process_frame};
use std::fmt::Debug;

/// The most samples that are measured.
pub const MOST_SAMPLES: u32 = 14_680_064;

/// The measuring state and its store.
#[derive(Debug, Clone)]
pub struct Measuring {
    pub samples: u32,
    pub records: u32,
    pub history: [i16; 28],
    pub store: Vec<f64>,
}

impl Measuring {
    /// A fresh state.
    pub fn new(store: Vec<f64>) -> Self {
        Self { samples: 0, records: 0, history: [0; 28], store }
    }

    /// The library's state.
    pub fn calculator(&self) -> Calculator {
        let Self { samples, records, history, .. } = *self;
        Calculator { samples, records, history }
    }

    /// "r > ⌊n/14⌋", "measured n > 14,680,064"; then codes 2 and 3.
    fn code(&self, piece: usize) -> u8 {
        let samples = u64::from(self.samples) + piece as u64;
        if self.records > self.samples / 14 || self.samples > MOST_SAMPLES {
            1
        } else if samples > MOST_SAMPLES.into() {
            2
        } else if (self.store.len() as u64) < 2 * samples.div_ceil(14) {
            3
        } else {
            0
        }
    }

    /// Measures a piece: 0 or the refusal's number.
    pub fn process(&mut self, piece: &[i16]) -> u8 {
        let code = self.code(piece.len());
        if code == 0 {
            piece.iter().for_each(|sample| self.push(*sample));
        }
        code
    }

    fn push(&mut self, sample: i16) {
        let place = self.samples as usize % SAMPLES_PER_FRAME;
        self.history[SAMPLES_PER_FRAME + place] = sample;
        self.samples += 1;
        if place + 1 == SAMPLES_PER_FRAME
            && let Some(record) = process_frame(&mut self.history)
        {
            self.write(record);
            self.records += 1;
        }
    }

    /// Writes the record at place r.
    fn write(&mut self, record: Record) {
        let place = 2 * self.records as usize;
        self.store[place..place + 2].copy_from_slice(&record);
    }

    /// The coefficients, with the last frame padded.
    pub fn finish(&mut self) -> Result<Coefficients, u8> {
        match self.code(0) {
            0 => Ok(self.coefficients()),
            code => Err(code),
        }
    }

    fn coefficients(&mut self) -> Coefficients {
        let begun = self.samples as usize % SAMPLES_PER_FRAME;
        let mut records = self.records as usize;
        let mut history = self.history;
        history[SAMPLES_PER_FRAME + begun..].fill(0);
        if begun > 0
            && let Some(record) = process_frame(&mut history)
        {
            self.write(record);
            records += 1;
        }
        coefficients_of_records(&self.store.as_chunks::<2>().0[..records])
    }
}

/// A state as numbers, and the store's bits.
type Processed = (Result<([u32; 2], [i16; 28]), u8>, Vec<u64>);

fn bits(store: &[f64]) -> Vec<u64> {
    store.iter().map(|value| value.to_bits()).collect()
}

/// Measures a piece both ways.
pub fn compare_process(now: &mut Measuring, piece: &[i16], input: &dyn Debug, tally: &mut Tally) {
    let mut store = now.store.clone();
    let processed = now.calculator().process(piece, &mut store);
    let library =
        processed.map(|after| ([after.samples, after.records], after.history)).map_err(number);
    let right = match now.process(piece) {
        0 => Ok(([now.samples, now.records], now.history)),
        code => Err(code),
    };
    let (library, right): (Processed, Processed) =
        ((library, bits(&store)), (right, bits(&now.store)));
    tally.compare("process", input, library, right);
}

/// Asks for coefficients both ways.
pub fn compare_finish(now: &mut Measuring, input: &dyn Debug, tally: &mut Tally) {
    let mut store = now.store.clone();
    let library = now.calculator().finish(&mut store);
    let library = library.map(|coefficients| coefficients.0).map_err(number);
    let right = now.finish();
    tally.compare("finish's store", input, bits(&store), bits(&now.store));
    tally.compare("finish", input, library, right);
}
