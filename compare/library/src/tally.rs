//! Compares answers and counts what differs.

use crate::answer::Answer;
use crate::frame_count::FrameCount;
use image_list::reader::Refused;
use std::collections::BTreeMap;
use std::fmt::{self, Debug};

/// The differences that are shown.
const SHOWN: u64 = 5;

/// The counts of a part.
pub struct Tally {
    pub part: &'static str,
    pub cases: u64,
    pub differences: u64,
    /// How often each comparison was made.
    pub compared: BTreeMap<&'static str, u64>,
    /// How often each refusal was seen, by its number.
    pub refused: [u64; 36],
    /// How often each comparison saw 20, 21, 22 and 35, and whether of a later block than the first.
    pub bad_entries: BTreeMap<(&'static str, u8, bool), u64>,
    /// The frames that the Rust encoded, in the parts that count them.
    pub frames: FrameCount,
    /// The comparison that is made with altered answers.
    wrong: Option<String>,
}

impl Tally {
    pub fn new(part: &'static str, wrong: Option<String>) -> Self {
        Self {
            part,
            cases: 0,
            differences: 0,
            compared: BTreeMap::new(),
            refused: [0; 36],
            bad_entries: BTreeMap::new(),
            frames: FrameCount::default(),
            wrong,
        }
    }

    /// Compares the library's answer with the one that it should give.
    pub fn compare<T: Answer>(
        &mut self,
        what: &'static str,
        input: &dyn Debug,
        library: T,
        mut right: T,
    ) {
        *self.compared.entry(what).or_default() += 1;
        let Refused { code, block } = right.refused().unwrap_or(Refused::by(0));
        self.refused[usize::from(code)] += 1;
        if matches!(code, 20..=22 | 35) {
            *self.bad_entries.entry((what, code, block > 0)).or_default() += 1;
        }
        if self.wrong.as_deref() == Some(what) {
            right.alter();
        }
        if library != right {
            self.differences += 1;
            if self.differences <= SHOWN {
                let part = self.part;
                eprintln!("{part}, {what}: {library:?}\n  should be {right:?}\n  for {input:?}");
            }
        }
    }
}

impl fmt::Display for Tally {
    fn fmt(&self, f: &mut fmt::Formatter) -> fmt::Result {
        let Self { part, cases, differences, .. } = self;
        write!(f, "{part}: {cases} random cases, {differences} differences; compared")?;
        for (what, count) in &self.compared {
            write!(f, ", {what} {count}")?;
        }
        write!(f, "; refused")?;
        for (code, count) in self.refused.iter().enumerate().skip(1).filter(|(_, n)| **n > 0) {
            write!(f, ", by {code} {count}")?;
        }
        if self.frames.all > 0 {
            write!(f, "; {}", self.frames)?;
        }
        Ok(())
    }
}
