//! What a clip is started with, and the encoding state.

use crate::loop_entry::context_bytes;
use crate::looped::{Loop, LoopState};
use oracle::{Coefficients, FrameContext, History, SAMPLES_PER_FRAME};

/// What a clip is started with.
#[derive(Debug, Clone, PartialEq)]
pub struct Start {
    pub total: u32,
    pub rate: u32,
    /// The block size before it is cut down.
    pub size: u32,
    pub gain: u16,
    pub coefficients: Coefficients,
    pub history: History,
    pub looped: Option<Loop>,
}

/// The encoding state.
#[derive(Debug, Clone, Default, PartialEq)]
pub struct State {
    pub total: u32,
    pub rate: u32,
    pub block: u32,
    pub gain: u16,
    pub coefficients: Coefficients,
    pub history: History,
    pub fed: u32,
    pub passes: u32,
    pub frame: [i16; SAMPLES_PER_FRAME],
    pub closed: bool,
    pub looped: LoopState,
    /// The context at the loop's start once its frame is encoded, else zeros.
    pub loop_context: FrameContext,
}

impl Start {
    /// "The block size is cut down to a multiple of 8".
    pub fn block(&self) -> u32 {
        self.size - self.size % 8
    }

    /// The state of a clip to which nothing was fed.
    pub fn state(&self) -> State {
        State {
            total: self.total,
            rate: self.rate,
            block: self.block(),
            gain: self.gain,
            coefficients: self.coefficients,
            history: self.history,
            looped: self.looped.into(),
            ..State::default()
        }
    }
}

impl State {
    /// The record of a state, from N on.
    pub fn record(&self) -> Vec<u8> {
        let mut record = vec![];
        for number in [self.total, self.rate, self.block] {
            record.extend(number.to_be_bytes());
        }
        record.extend(self.gain.to_be_bytes());
        record.extend(bytes(&self.coefficients));
        record.extend(bytes(&self.history));
        for number in [self.fed, self.passes] {
            record.extend(number.to_be_bytes());
        }
        record.extend(bytes(&self.frame));
        record
    }

    /// Whether one of the numbers of the loop and its context is not zero.
    pub fn has_loop(&self) -> bool {
        self.looped != LoopState::default() || self.loop_context != FrameContext::default()
    }

    /// The record of the loop and its context, from the start on.
    pub fn loop_record(&self) -> Vec<u8> {
        let ends = [self.looped.start, self.looped.end].map(u32::to_be_bytes);
        [ends.concat(), context_bytes(self.loop_context)].concat()
    }

    /// The words of the loop and its context; none where all their numbers are zero.
    fn loop_words(&self) -> String {
        let LoopState { start, end, present } = self.looped;
        let FrameContext { predictor_and_scale: header, last_samples } = self.loop_context;
        let history = hexadecimal(&bytes(&last_samples));
        match self.has_loop() {
            true => {
                format!(" {start:08x} {end:08x} {:02x} {header:04x} {history}", u8::from(present))
            }
            false => String::new(),
        }
    }

    /// The words of an answer.
    pub fn words(&self) -> String {
        let Self { total, rate, block, gain, fed, passes, .. } = self;
        let [coefficients, history, frame] = [&self.coefficients[..], &self.history, &self.frame]
            .map(|numbers| hexadecimal(&bytes(numbers)));
        let (closed, looped) = (u8::from(self.closed), self.loop_words());
        format!(
            "{total:08x} {rate:08x} {block:08x} {gain:04x} {coefficients} {history} {fed:08x} {passes:08x} {frame} {closed:02x}{looped}"
        )
    }
}

/// Two bytes each, high byte first.
pub fn bytes(numbers: &[i16]) -> Vec<u8> {
    numbers.iter().flat_map(|number| number.to_be_bytes()).collect()
}

/// Two digits each.
pub fn hexadecimal(bytes: &[u8]) -> String {
    bytes.iter().map(|byte| format!("{byte:02x}")).collect()
}
