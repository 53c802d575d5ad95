//! Measuring: from samples to sixteen coefficients.

use crate::{Coefficients, MAX_SAMPLES, Refusal, ffi};

/// The count of f64 numbers that measuring `samples` samples needs: two for each frame, the last one counted whole.
///
/// ```
/// assert_eq!(doilycairn::store_size(28), 4);
/// assert_eq!(doilycairn::store_size(29), 6);
/// ```
pub fn store_size(samples: u32) -> usize {
    ffi::store_size(samples) as usize
}

/// The measuring state, a plain value: to undo a piece, keep the state from before it. [`Measure`] holds one together with its store.
#[repr(C)]
#[derive(Clone, Copy, Debug, PartialEq, Eq)]
pub struct Calculator {
    /// Samples measured so far.
    pub samples: u32,
    /// Records in the store, of two numbers each.
    pub records: u32,
    /// The frame before, and the frame that is not yet full.
    pub history: [i16; 28],
}

impl Calculator {
    /// A fresh state.
    pub fn new() -> Self {
        ffi::new()
    }

    /// Measures the next piece. The store has at least [`store_size`] numbers for all samples, the piece counted.
    pub fn process(self, piece: &[i16], store: &mut [f64]) -> Result<Self, Refusal> {
        let processed = ffi::process(self, piece, store);
        Refusal::check(processed.code, 0)?;
        Ok(processed.calculator)
    }

    /// The coefficients of all that was measured. Writes the record of a frame that is not full after the others.
    pub fn finish(self, store: &mut [f64]) -> Result<Coefficients, Refusal> {
        let finished = ffi::finish(self, store);
        Refusal::check(finished.code, 0)?;
        Ok(finished.coefficients)
    }
}

impl Default for Calculator {
    fn default() -> Self {
        Self::new()
    }
}

/// Where records are kept: a `Vec<f64>`, which grows as needed, or a `&mut [f64]` of fixed length.
pub trait Store: private::Sealed {
    /// All its numbers, at least `wanted` of them if it can grow.
    fn lend(&mut self, wanted: usize) -> &mut [f64];
}

mod private {
    pub trait Sealed {}
    impl Sealed for Vec<f64> {}
    impl Sealed for &mut [f64] {}
}

impl Store for Vec<f64> {
    fn lend(&mut self, wanted: usize) -> &mut [f64] {
        if self.len() < wanted {
            self.resize(wanted, 0.0);
        }
        self
    }
}

impl Store for &mut [f64] {
    fn lend(&mut self, _: usize) -> &mut [f64] {
        self
    }
}

/// Measures a clip, piece by piece, in a store of its own or in one that is lent.
///
/// ```
/// use doilycairn::{Measure, Refusal};
///
/// let clip: Vec<i16> = (0..1000).map(|i| (i * 37 % 2001 - 1000) as i16).collect();
/// let mut measure = Measure::new();
/// measure.process(&clip[..333])?;
/// measure.process(&clip[333..])?;
/// let coefficients = measure.coefficients()?;
///
/// // In a lent store, in one piece: the same.
/// let mut store = vec![0.0; doilycairn::store_size(1000)];
/// let mut measure = Measure::with_store(&mut store[..]);
/// measure.process(&clip)?;
/// assert_eq!(measure.coefficients()?, coefficients);
/// # Ok::<(), Refusal>(())
/// ```
#[derive(Clone, Debug, Default)]
pub struct Measure<S: Store = Vec<f64>> {
    calculator: Calculator,
    store: S,
}

impl Measure {
    /// Nothing measured, with a store of its own.
    pub fn new() -> Self {
        Self::default()
    }
}

impl<S: Store> Measure<S> {
    /// Nothing measured, with this store.
    pub fn with_store(store: S) -> Self {
        Self::from_parts(Calculator::new(), store)
    }

    /// Goes on from a state, with the store that it was measured with.
    pub fn from_parts(calculator: Calculator, store: S) -> Self {
        Self { calculator, store }
    }

    /// The state and the store.
    pub fn into_parts(self) -> (Calculator, S) {
        (self.calculator, self.store)
    }

    /// The state.
    pub fn calculator(&self) -> Calculator {
        self.calculator
    }

    /// Measures the next piece, of any length. A refused call leaves the store as it was, its length too.
    pub fn process(&mut self, piece: &[i16]) -> Result<(), Refusal> {
        let store = self.store.lend(wanted(self.calculator, piece.len()));
        self.calculator = self.calculator.process(piece, store)?;
        Ok(())
    }

    /// The coefficients of all that was measured so far. Measuring can go on after it.
    pub fn coefficients(&mut self) -> Result<Coefficients, Refusal> {
        self.calculator.finish(self.store.lend(wanted(self.calculator, 0)))
    }
}

/// The numbers that a store needs after `more` samples; none where the call is refused whatever the store.
fn wanted(calculator: Calculator, more: usize) -> usize {
    if calculator.process(&[], &mut []) == Err(Refusal::InvalidState) {
        return 0;
    }
    match u32::try_from(more).ok().and_then(|more| calculator.samples.checked_add(more)) {
        Some(all) if all <= MAX_SAMPLES => store_size(all),
        _ => 0,
    }
}
