//! Sixteen coefficients.

use crate::{Measure, Refusal};

/// Eight pairs of coefficients: c0 at even places, c1 at odd ones. Encoding takes those with |c0| + |c1| up to [`MAX_PAIR_SUM`](crate::MAX_PAIR_SUM) in each pair.
#[repr(transparent)]
#[derive(Clone, Copy, Debug, Default, PartialEq, Eq, Hash)]
pub struct Coefficients(pub [i16; 16]);

impl Coefficients {
    /// The coefficients of a clip that is at hand in one piece.
    ///
    /// ```
    /// use doilycairn::Coefficients;
    ///
    /// // Silence has no record to measure.
    /// assert_eq!(Coefficients::measure(&[0; 100])?, Coefficients([0; 16]));
    /// # Ok::<(), doilycairn::Refusal>(())
    /// ```
    pub fn measure(clip: &[i16]) -> Result<Self, Refusal> {
        let mut measure = Measure::new();
        measure.process(clip)?;
        measure.coefficients()
    }

    /// The pairs (c0, c1), by their index.
    pub fn pairs(&self) -> [(i16, i16); 8] {
        std::array::from_fn(|i| (self.0[2 * i], self.0[2 * i + 1]))
    }
}

impl From<[i16; 16]> for Coefficients {
    fn from(coefficients: [i16; 16]) -> Self {
        Self(coefficients)
    }
}

impl From<Coefficients> for [i16; 16] {
    fn from(coefficients: Coefficients) -> Self {
        coefficients.0
    }
}
