//! Undo over a trim and a change of the rate, without encoding afresh: images are values, so that stepping back is keeping the older one.

use doilycairn::{Coefficients, Encoder, History, Refusal, Start, same, sounds_same};
use std::ops::Range;

/// A step of the editor: which samples of the recording are kept, their rate, and their image. Nothing alters a step.
struct Step {
    kept: Range<usize>,
    rate: u32,
    image: Vec<u8>,
}

struct Editor {
    recording: Vec<i16>,
    coefficients: Coefficients,
    done: Vec<Step>,
    undone: Vec<Step>,
    encodings: usize,
}

impl Editor {
    /// The first step: all of the recording, measured once.
    fn open(recording: Vec<i16>, rate: u32) -> Result<Self, Refusal> {
        let (all, coefficients) = (0..recording.len(), Coefficients::measure(&recording)?);
        let (done, undone) = (vec![], vec![]);
        let mut editor = Self { recording, coefficients, done, undone, encodings: 0 };
        editor.step(all, rate)?;
        Ok(editor)
    }

    /// Makes a step, unless its clip is the one at hand: by `same`, since by the sound alone a change of the rate would be no step, and lost. This
    /// encodes; a refusal leaves the editor as it was.
    fn step(&mut self, kept: Range<usize>, rate: u32) -> Result<(), Refusal> {
        let image = encode(&self.recording[kept.clone()], rate, self.coefficients)?;
        self.encodings += 1;
        match self.done.last() {
            Some(now) if same(&now.image, &image)? => return Ok(()),
            _ => self.done.push(Step { kept, rate, image }),
        }
        self.undone.clear();
        Ok(())
    }

    /// Keeps these samples alone.
    fn trim(&mut self, kept: Range<usize>) -> Result<(), Refusal> {
        self.step(kept, self.now().rate)
    }

    /// Plays the same samples at another rate.
    fn set_rate(&mut self, rate: u32) -> Result<(), Refusal> {
        self.step(self.now().kept.clone(), rate)
    }

    /// Steps back, if there is an older step. This encodes nothing.
    fn undo(&mut self) {
        if self.done.len() > 1 {
            self.undone.extend(self.done.pop());
        }
    }

    /// Steps forward again.
    fn redo(&mut self) {
        self.done.extend(self.undone.pop());
    }

    fn now(&self) -> &Step {
        self.done.last().expect("the first step is never undone")
    }
}

fn encode(clip: &[i16], rate: u32, coefficients: Coefficients) -> Result<Vec<u8>, Refusal> {
    let start = Start {
        total: clip.len() as u32,
        rate,
        block_size: 1024,
        gain: 0,
        coefficients,
        history: History::default(),
        looped: None,
    };
    let mut encoder = Encoder::start(&start)?;
    encoder.feed(clip)?;
    encoder.close()?;
    Ok(encoder.into_parts().1)
}

/// A trim and another rate, undone and redone.
pub fn main() -> Result<(), Refusal> {
    let wave = |i: i32| 9000.0 * (f64::from(i) * 0.05).sin() + 3000.0 * (f64::from(i) * 0.31).sin();
    let mut editor = Editor::open((0..50_000).map(|i| wave(i) as i16).collect(), 32_000)?;
    let whole = editor.now().image.clone();

    editor.trim(1234..45_678)?; // neither end is the edge of a block or of a frame
    let trimmed = editor.now().image.clone();
    assert!(!same(&whole, &trimmed)?);

    editor.undo();
    assert_eq!(editor.now().kept, 0..50_000);
    assert!(same(&whole, &editor.now().image)?);

    editor.redo();
    assert!(same(&trimmed, &editor.now().image)?);
    assert_eq!(editor.encodings, 2); // one for each step, none for stepping

    // The rate alone: not one sample is another, and it is a step, so that undo shows the right rate.
    editor.set_rate(16_000)?;
    assert!(!same(&trimmed, &editor.now().image)? && sounds_same(&trimmed, &editor.now().image)?);
    editor.undo();
    assert_eq!((editor.now().rate, editor.done.len()), (32_000, 2));

    // The rate that it has: nothing to take back, and what was undone is still there.
    editor.set_rate(32_000)?;
    assert_eq!((editor.done.len(), editor.undone.len()), (2, 1));

    // No sample left: refused, and the editor stands where it stood.
    assert_eq!(editor.trim(7..7), Err(Refusal::BadSampleCount));
    assert!(same(&trimmed, &editor.now().image)?);
    println!("undone and redone: {} steps, {} encodings", editor.done.len(), editor.encodings);
    Ok(())
}
