//! How far what an image plays is from a reference.

use crate::json::{Fields, Json};
use crate::survey::headers;
use doilycairn::{Image, Refusal};

/// The samples of the frames of one exponent.
#[derive(Clone, Copy, Debug, Default, PartialEq, Eq)]
pub struct Reached {
    pub samples: u64,
    /// The largest distance, and the first sample that has it.
    pub largest: u32,
    pub at: usize,
    /// Samples beyond the bound.
    pub beyond: u64,
}

/// Distances of a clip, by exponent.
#[derive(Clone, Debug, Default, PartialEq)]
pub struct Distances {
    pub reached: [Reached; 16],
    signal: u128,
    noise: u128,
}

/// The proved bound of a clip that this library encoded, for exponents below 12.
pub fn bound(exponent: usize) -> Option<u32> {
    (exponent < 12).then(|| (3u32 << exponent).div_ceil(2))
}

impl Distances {
    /// Plays the image beside the reference, which has as many samples.
    pub fn of(image: &Image, reference: &[i16]) -> Result<Self, Refusal> {
        let mut distances = Self::default();
        let (mut played, mut at) = (vec![], 0);
        for block in image.blocks() {
            played.resize(block.sample_count(), 0);
            block.play(&mut played)?;
            for (frame, header) in played.chunks(14).zip(headers(&block)) {
                distances.add(at, frame, &reference[at..], usize::from(header & 15));
                at += frame.len();
            }
        }
        Ok(distances)
    }

    /// Adds a frame, which begins at sample `at`.
    fn add(&mut self, at: usize, frame: &[i16], originals: &[i16], exponent: usize) {
        let reached = &mut self.reached[exponent];
        for (i, (played, original)) in frame.iter().zip(originals).enumerate() {
            let distance = played.abs_diff(*original);
            let distance = u32::from(distance);
            if reached.samples == 0 || distance > reached.largest {
                (reached.largest, reached.at) = (distance, at + i);
            }
            reached.samples += 1;
            reached.beyond += u64::from(bound(exponent).is_some_and(|bound| distance > bound));
            self.signal += u128::from(original.unsigned_abs()).pow(2);
            self.noise += u128::from(distance).pow(2);
        }
    }

    /// The largest distance, and the first sample that has it.
    pub fn largest(&self) -> (u32, usize) {
        let used = self.reached.iter().filter(|reached| reached.samples > 0);
        let most = used.map(|reached| (reached.largest, std::cmp::Reverse(reached.at))).max();
        most.map_or((0, 0), |(largest, at)| (largest, at.0))
    }

    /// Samples beyond their frames' bounds.
    pub fn beyond(&self) -> u64 {
        self.reached.iter().map(|reached| reached.beyond).sum()
    }

    /// Signal to noise in decibels; none where nothing is lost, or there is no signal.
    pub fn decibels(&self) -> Option<f64> {
        let lost = self.signal > 0 && self.noise > 0;
        lost.then(|| 10.0 * (self.signal as f64 / self.noise as f64).log10())
    }

    pub fn fields<'a>(&self) -> Fields<'a> {
        let (largest, at) = self.largest();
        let used = self.reached.into_iter().enumerate().filter(|(_, r)| r.samples > 0);
        let by_exponent = used.map(|(exponent, reached)| {
            Json::Object(vec![
                ("exponent", Json::Whole(exponent as i64)),
                ("samples", Json::Whole(reached.samples as i64)),
                ("bound", bound(exponent).map_or(Json::Null, |b| Json::Whole(b.into()))),
                ("largest", Json::Whole(reached.largest.into())),
                ("sample", Json::Whole(reached.at as i64)),
                ("beyond_bound", Json::Whole(reached.beyond as i64)),
            ])
        });
        vec![
            ("largest", Json::Whole(largest.into())),
            ("sample", Json::Whole(at as i64)),
            ("beyond_bound", Json::Whole(self.beyond() as i64)),
            ("signal_to_noise_db", self.decibels().map_or(Json::Null, Json::Real)),
            ("by_exponent", Json::list(by_exponent)),
        ]
    }
}

#[cfg(test)]
mod tests {
    use super::*;

    #[test]
    fn bounds() {
        assert_eq!([0, 1, 2, 11].map(bound), [Some(2), Some(3), Some(6), Some(3072)]);
        assert_eq!([12, 15].map(bound), [None; 2]);
    }

    #[test]
    fn the_first_of_the_largest_counts() {
        let mut distances = Distances::default();
        distances.add(0, &[5, 5], &[5, 8], 1);
        distances.add(2, &[0, 4], &[3, 0], 0);
        distances.add(4, &[9], &[13], 12);
        assert_eq!(distances.largest(), (4, 3));
        assert_eq!(distances.beyond(), 2);
        assert_eq!(distances.reached[0], Reached { samples: 2, largest: 4, at: 3, beyond: 2 });
        assert!(distances.decibels().is_some_and(|d| d.is_finite()));
    }
}
