//! Loops: as a clip is started with one, and as a state holds it.

/// A loop: its first sample, and the one after its last.
#[derive(Debug, Clone, Copy, PartialEq)]
pub struct Loop {
    pub start: u32,
    pub end: u32,
}

impl Loop {
    /// Not so: "the start is not below the end or the end is above N".
    pub fn is_within(self, total: u32) -> bool {
        self.start < self.end && self.end <= total
    }
}

/// A loop as a state holds it; zeros where there is none.
#[derive(Debug, Clone, Copy, Default, PartialEq)]
pub struct LoopState {
    pub start: u32,
    pub end: u32,
    pub present: bool,
}

impl LoopState {
    /// The loop, where there is one.
    pub fn looped(self) -> Option<Loop> {
        let Self { start, end, present } = self;
        present.then_some(Loop { start, end })
    }
}

impl From<Option<Loop>> for LoopState {
    fn from(looped: Option<Loop>) -> Self {
        let of = |Loop { start, end }| Self { start, end, present: true };
        looped.map_or(Self::default(), of)
    }
}
