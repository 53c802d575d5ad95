//! Writes a case: puts what the source lacks, and makes calls on it.

use crate::call::{Answer, Call};
use crate::case::{Case, LINE, MOST_BYTES, Machine, Step};
use crate::exporting::export;
use crate::importing::import;

/// A case that is being written, the bytes that are known, and the length of the source that is lent.
#[derive(Default)]
pub struct Writer {
    steps: Vec<Step>,
    machine: Machine,
    len: usize,
    last: Answer,
}

impl Writer {
    /// Starts with a file or an image.
    pub fn new(source: &[u8]) -> Self {
        let mut writer = Self::default();
        writer.source(source);
        writer
    }

    pub fn finish(self) -> Case {
        Case(self.steps)
    }

    /// Makes the source this file or image.
    pub fn source(&mut self, source: &[u8]) -> &mut Self {
        let mut place = 0;
        while let Some(from) = (place..source.len()).find(|place| self.lacks(source, *place)) {
            let most = source.len().min(from + LINE);
            let last = (from..most).rfind(|place| self.lacks(source, *place));
            place = last.map_or(from, |last| last + 1);
            self.take(Step::Put { place: from, bytes: source[from..place].to_vec() });
        }
        self.len = source.len();
        self
    }

    /// Whether a byte has yet to be put.
    fn lacks(&self, source: &[u8], place: usize) -> bool {
        self.machine.source.get(place) != source.get(place)
    }

    /// The bytes that are lent.
    fn lent(&self) -> &[u8] {
        &self.machine.source[..self.len]
    }

    fn take(&mut self, step: Step) {
        if let Some((answer, _)) = self.machine.take(&step) {
            self.last = answer;
        }
        self.steps.push(step);
    }

    fn call(&mut self, call: Call, shown: bool) -> &mut Self {
        self.take(Step::Call { call, len: self.len, shown });
        self
    }

    /// Exports with a room.
    pub fn export(&mut self, room: usize) -> &mut Self {
        self.call(Call::Export { room }, false)
    }

    /// Imports at a block size with a room.
    pub fn import(&mut self, size: u32, room: usize) -> &mut Self {
        self.call(Call::Import { size, room }, false)
    }

    /// Asks how much room import needs at a block size.
    pub fn room(&mut self, size: u32) -> &mut Self {
        self.call(Call::Room { size }, false)
    }

    /// How much room exporting needs; 3 where it is refused.
    pub fn needed_to_export(&self) -> usize {
        export(self.lent()).map_or(3, |file| file.len())
    }

    /// How much room importing at a block size needs; 3 where it is refused.
    pub fn needed_to_import(&self, size: u32) -> usize {
        import(self.lent(), size).map_or(3, |image| image.len())
    }

    /// Exports with as much room as is needed, and some more; the bytes are written where they are asked for.
    pub fn export_all(&mut self, more: usize, shown: bool) -> &mut Self {
        let room = self.needed_to_export() + more;
        self.call(Call::Export { room: room.min(MOST_BYTES) }, shown)
    }

    /// Imports with as much room as is needed, and some more; the bytes are written where they are asked for.
    pub fn import_all(&mut self, size: u32, more: usize, shown: bool) -> &mut Self {
        let room = self.needed_to_import(size) + more;
        self.call(Call::Import { size, room: room.min(MOST_BYTES) }, shown)
    }

    /// Makes what the last call wrote the source.
    pub fn swap(&mut self) -> &mut Self {
        assert_eq!(self.last.code, 0);
        self.len = self.last.count;
        self.take(Step::Swap);
        self
    }

    /// Imports a file and exports its image; the source is then that image's file.
    pub fn in_and_out(&mut self, size: u32) -> &mut Self {
        self.import_all(size, 0, false).swap().export_all(0, false).swap()
    }

    /// Exports an image and imports its file; the source is then that file's image.
    pub fn out_and_in(&mut self, size: u32) -> &mut Self {
        self.export_all(0, false).swap().import_all(size, 0, false).swap()
    }
}
