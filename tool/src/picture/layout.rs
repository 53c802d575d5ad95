//! Where the parts of the picture stand, in user units.

use super::seen::{COLUMNS, Seen};

pub const WIDTH: u32 = 1200;

/// The left edge of the panels; a column of samples is one unit wide.
pub const LEFT: f64 = 64.0;
pub const RIGHT: f64 = LEFT + COLUMNS as f64;

/// The first line of words below the title, and from line to line.
pub const WORDS: f64 = 40.0;
pub const LINE: f64 = 14.0;

/// Between panels; more where a mark has its label there.
const GAP: f64 = 8.0;
const STRIP: f64 = 18.0;

#[derive(Clone, Copy, Debug)]
pub struct Panel {
    pub top: f64,
    pub height: f64,
}

impl Panel {
    pub fn bottom(&self) -> f64 {
        self.top + self.height
    }

    pub fn middle(&self) -> f64 {
        self.top + self.height / 2.0
    }

    /// The panel after this one.
    fn below(&self, labelled: bool, height: f64) -> Self {
        Self { top: self.bottom() + if labelled { STRIP } else { GAP }, height }
    }
}

pub struct Layout {
    total: f64,
    /// Whether the largest jump has its label above the waveform.
    jump: bool,
    pub wave: Panel,
    pub distance: Option<Panel>,
    pub exponent: Panel,
    pub predictor: Panel,
}

impl Layout {
    /// Below so many lines of words.
    pub fn new(seen: &Seen, lines: usize) -> Self {
        let compared = seen.distance.is_some();
        let above = WORDS + LINE * lines as f64;
        let jump = seen.odd.is_some();
        let room = if seen.looped.is_some() { STRIP } else { 0.0 };
        let top = above + room + if jump { 8.0 } else { -4.0 };
        let wave = Panel { top, height: if compared { 220.0 } else { 280.0 } };
        let clicks = seen.seams.largest.is_some();
        let distance = compared.then(|| wave.below(clicks, 60.0));
        let far = seen.distance.as_ref().and_then(|distance| distance.largest);
        let labelled = if compared { far.is_some_and(|far| far.size > 0) } else { clicks };
        let exponent = distance.unwrap_or(wave).below(labelled, 78.0);
        let predictor = exponent.below(false, 96.0);
        Self { total: seen.head.total.into(), jump, wave, distance, exponent, predictor }
    }

    /// The line of words for the loop: above the waveform, and above the jump's.
    pub fn loop_line(&self) -> f64 {
        self.wave.top - if self.jump { 3.0 + LINE } else { 3.0 }
    }

    /// Where a sample begins; half a sample on is its middle.
    pub fn x(&self, sample: f64) -> f64 {
        LEFT + sample / self.total * f64::from(COLUMNS)
    }

    /// The line of an axis below the panels, from 0 on.
    pub fn axis(&self, line: usize) -> f64 {
        self.predictor.bottom() + 14.0 + LINE * line as f64
    }

    /// The first line of the legend.
    pub fn legend(&self) -> f64 {
        self.axis(3) + 8.0
    }

    pub fn panels(&self) -> impl Iterator<Item = Panel> {
        [Some(self.wave), self.distance, Some(self.exponent), Some(self.predictor)]
            .into_iter()
            .flatten()
    }
}
