//! Random clips through every call; says what panicked and what did not agree.

use crate::pairs::are_of_measured_size;
use crate::random::Random;
use crate::{Coefficients, Encoded, History, SAMPLES_PER_FRAME};
use crate::{caught, coefficients_of_records, decode, encode, encode_frame, measure};

/// What a run found.
#[derive(Debug, Default)]
pub struct Report {
    pub clips: u32,
    pub samples: u64,
    pub passes: u64,
    /// The call, the clip's number, and the message.
    pub panics: Vec<String>,
    /// The clip's number, and what did not agree.
    pub differences: Vec<String>,
}

impl Report {
    /// Runs a call and notes its panic.
    fn call<T>(&mut self, name: &str, run: impl FnOnce() -> T) -> Option<T> {
        match caught(run) {
            Ok(answer) => Some(answer),
            Err(message) => {
                self.panics.push(format!("{name}, clip {}: {message}", self.clips));
                None
            }
        }
    }

    /// Notes a difference.
    fn expect(&mut self, holds: bool, what: &str) {
        if !holds {
            self.differences.push(format!("clip {}: {what}", self.clips));
        }
    }
}

/// Runs `clips` random clips, with coefficients that starting a clip accepts.
pub fn self_run(clips: u32, seed: u64) -> Report {
    let (mut report, mut random) = (Report::default(), Random::new(seed));
    for number in 0..clips {
        report.clips = number;
        run_clip(&mut report, &mut random);
    }
    report.clips = clips;
    report
}

/// Measures, encodes and plays one clip.
fn run_clip(report: &mut Report, random: &mut Random) {
    let len = random.below_one(&[3, 60, 1000, 3000]);
    let samples = random.clip(len);
    report.samples += len as u64;
    let Some(measured) = run_measure(report, &random.cut(&samples)) else { return };
    let coefficients = match random.below(3) {
        0 => measured,
        1 => random.older_bank(),
        _ => random.coefficients(),
    };
    let history = [random.sample(), random.sample()];
    let size = 8 + random.below_one(&[8, 100, 70_000]);
    let cut = random.cut(&samples);
    let run = || encode(&cut, 32_000, size, &coefficients, 1, history).unwrap();
    let Some(encoded) = report.call("encode", run) else { return };
    report.passes += encoded.passes;
    run_frames(report, &samples, &encoded, &coefficients, history);
    run_decode(report, &encoded, history, len);
}

/// Measures a clip; its coefficients must be those of its records, within ±4,096 and ±2,048.
fn run_measure(report: &mut Report, pieces: &[&[i16]]) -> Option<Coefficients> {
    let measured = report.call("measure", || measure(pieces))?;
    let again = report.call("finish", || coefficients_of_records(&measured.records))?;
    report.expect(again == measured.coefficients, "coefficients of the records");
    report.expect(are_of_measured_size(&again), "coefficients outside ±4,096 and ±2,048");
    report.expect(!measured.records.is_empty() || again == [0; 16], "no record, not zeros");
    Some(measured.coefficients)
}

/// Encodes a clip frame by frame; the bytes and the history must be those of its blocks.
fn run_frames(
    report: &mut Report,
    samples: &[i16],
    encoded: &Encoded,
    coefficients: &Coefficients,
    mut history: History,
) {
    let mut bytes = vec![];
    for frame in samples.chunks(SAMPLES_PER_FRAME) {
        let run = || encode_frame(history, frame, coefficients);
        let Some((body, passes, end)) = report.call("encode_frame", run) else { return };
        report.expect((8..=104).contains(&passes), "passes outside 8 to 104");
        bytes.extend(body);
        history = end;
    }
    let bodies: Vec<_> = encoded.blocks.iter().flat_map(|block| block.bytes.clone()).collect();
    report.expect(bytes == bodies, "bytes of the frames");
    report.expect(history == encoded.history, "history after the frames");
}

/// Plays a clip's blocks; they must hold as many samples and hand on the history.
fn run_decode(report: &mut Report, encoded: &Encoded, mut history: History, len: usize) {
    let mut count = 0;
    for block in &encoded.blocks {
        report.expect(block.last_samples == history, "history before a block");
        let run = || decode(&block.bytes, block.len, &block.coefficients, block.context());
        let Some((played, end)) = report.call("decode", run) else { return };
        count += played.len();
        history = end.last_samples;
    }
    report.expect(count == len, "number of samples played");
    report.expect(history == encoded.history, "history after the blocks");
}
