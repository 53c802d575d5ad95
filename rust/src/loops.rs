//! The loop of a clip, and as the encoding state holds it.

/// A loop: from sample `start` up to, not including, sample `end`. Starting takes it where `start < end` and `end` is at most the clip's total.
#[derive(Clone, Copy, Debug, PartialEq, Eq)]
pub struct Loop {
    /// Its first sample.
    pub start: u32,
    /// The sample after its last.
    pub end: u32,
}

/// The loop of an encoding state, or none.
#[repr(C)]
#[derive(Clone, Copy, Debug, Default, PartialEq, Eq)]
pub struct LoopState {
    /// Its first sample.
    pub start: u32,
    /// The sample after its last.
    pub end: u32,
    /// Whether there is a loop; `start` and `end` count only then, and are else zeros.
    pub present: bool,
}

impl LoopState {
    /// The loop, if there is one.
    ///
    /// ```
    /// use doilycairn::{Loop, LoopState};
    ///
    /// let state = LoopState { start: 5, end: 17, present: true };
    /// assert_eq!(state.looped(), Some(Loop { start: 5, end: 17 }));
    /// assert_eq!(LoopState::default().looped(), None);
    /// ```
    pub fn looped(self) -> Option<Loop> {
        let Self { start, end, present } = self;
        present.then_some(Loop { start, end })
    }
}
