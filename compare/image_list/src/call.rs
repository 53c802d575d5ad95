//! Calls on images, and their answers as documents 01 and 02 read images and the Rust plays blocks.

use crate::comparing::{same, sounds_same};
use crate::located::Run;
use crate::looped::{LoopEntry, Turns};
use crate::reader::{Played, Refused, open};
use clip_list::{Loop, bytes, hexadecimal};
use oracle::FrameContext;

/// A call; all but the last four are made on the first image.
#[derive(Debug, Clone, Copy, PartialEq)]
pub enum Call {
    Open,
    Body {
        k: u32,
    },
    Play {
        k: u32,
        room: usize,
    },
    /// Plays all blocks.
    PlayAll {
        room: usize,
    },
    /// Plays from a sample on.
    PlayFrom {
        first: u32,
        room: usize,
    },
    /// Plays the loop some times over.
    PlayLoop {
        times: u32,
        room: usize,
    },
    Same,
    /// Compares the second image with the first.
    Reversed,
    /// Compares by the sound alone.
    SoundsSame,
    /// Compares the second image with the first by the sound alone.
    SoundsReversed,
}

impl Call {
    pub fn letter(self) -> char {
        match self {
            Self::Open => 'o',
            Self::Body { .. } => 'k',
            Self::Play { .. } => 'p',
            Self::PlayAll { .. } => 'a',
            Self::PlayFrom { .. } => 'm',
            Self::PlayLoop { .. } => 't',
            Self::Same => 's',
            Self::Reversed => 'r',
            Self::SoundsSame => 'h',
            Self::SoundsReversed => 'v',
        }
    }

    /// The number of the block, of the first sample or of times, and the output's length; zero where there is none.
    pub fn numbers(self) -> (u32, usize) {
        match self {
            Self::Body { k } => (k, 0),
            Self::Play { k, room } => (k, room),
            Self::PlayAll { room } => (0, room),
            Self::PlayFrom { first, room } => (first, room),
            Self::PlayLoop { times, room } => (times, room),
            _ => (0, 0),
        }
    }

    /// What the call on two images answers.
    pub fn answer(self, first: &[u8], second: &[u8]) -> String {
        match self {
            Self::Open => opened(first),
            Self::Body { k } => body(first, k as usize),
            Self::Play { k, room } => {
                played(room, open(first).and_then(|image| image.play(k as usize, room)))
            }
            Self::PlayAll { room } => {
                played(room, open(first).and_then(|image| image.play_all(room)))
            }
            Self::PlayFrom { first: sample, room } => {
                run(room, open(first).and_then(|image| image.play_from(sample, room)))
            }
            Self::PlayLoop { times, room } => {
                turns(room, open(first).and_then(|image| image.play_loop(times, room)))
            }
            Self::Same => compared(same(first, second)),
            Self::Reversed => compared(same(second, first)),
            Self::SoundsSame => compared(sounds_same(first, second)),
            Self::SoundsReversed => compared(sounds_same(second, first)),
        }
    }
}

/// The first two words: 00 or the refusal's number, and the block whose entry is bad.
fn begun<T>(answer: &Result<T, Refused>) -> String {
    let Refused { code, block } = answer.as_ref().err().copied().unwrap_or(Refused::by(0));
    format!("{code:02x} {block:08x}")
}

fn opened(image: &[u8]) -> String {
    let opened = open(image);
    let begun = begun(&opened);
    let ([total, rate, block], coefficients, gain, blocks, looped) = match opened {
        Ok(head) => {
            let numbers = [head.total, head.rate, head.block];
            let looped = head.looped.map_or(String::new(), loop_words);
            (numbers, head.coefficients, head.gain, head.entries.len(), looped)
        }
        Err(_) => ([0; 3], [0; 16], 0, 0, String::new()),
    };
    let coefficients = hexadecimal(&bytes(&coefficients));
    format!(
        "{begun} {total:08x} {rate:08x} {block:08x} {coefficients} {gain:04x} {blocks:08x}{looped}"
    )
}

/// The words of a loop, with a space before them.
fn loop_words(entry: LoopEntry) -> String {
    let Loop { start, end } = entry.looped;
    format!(" {start:08x} {end:08x} {}", context_words(entry.context))
}

/// A header, and two samples.
fn context_words(context: FrameContext) -> String {
    let history = hexadecimal(&bytes(&context.last_samples));
    format!("{:04x} {history}", context.predictor_and_scale)
}

fn body(image: &[u8], k: usize) -> String {
    let body = open(image).and_then(|opened| {
        let entry = opened.entry(k)?;
        Ok(hexadecimal(opened.body(entry)))
    });
    format!("{} {}", begun(&body), body.unwrap_or_default())
}

/// The whole output, of which the first samples are written.
fn output(room: usize, samples: &[i16]) -> String {
    let mut output = vec![0x5a5a; room];
    output[..samples.len()].copy_from_slice(samples);
    hexadecimal(&bytes(&output))
}

fn played(room: usize, played: Played) -> String {
    let begun = begun(&played);
    let (samples, context) = played.unwrap_or_default();
    let (count, context) = (samples.len(), context_words(context));
    format!("{begun} {count:08x} {context} {}", output(room, &samples))
}

fn run(room: usize, run: Run) -> String {
    let begun = begun(&run);
    let (samples, blocks) = run.unwrap_or_default();
    format!("{begun} {:08x} {blocks:08x} {}", samples.len(), output(room, &samples))
}

fn turns(room: usize, turns: Turns) -> String {
    let begun = begun(&turns);
    let samples = turns.unwrap_or_default();
    format!("{begun} {:08x} {}", samples.len(), output(room, &samples))
}

fn compared(answer: Result<bool, Refused>) -> String {
    format!("{} {:08x}", begun(&answer), u8::from(answer.unwrap_or_default()))
}
