//! Gathering what the picture shows: the blocks are played in turn, once.

use super::jumps::{Around, Beside};
use super::seen::{COLUMNS, Cell, Column, Distance, Peak, Seams, Seen, bound};
use crate::loops::Looped;
use crate::seams::off;
use doilycairn::{Block, Image, Refusal};

/// What the picture of this image shows.
pub fn walk(image: &Image, reference: Option<&[i16]>) -> Result<Seen, Refusal> {
    let mut walk = Walk::new(image, reference.unwrap_or(&[]), reference.is_some());
    for block in image.blocks() {
        walk.block(&block)?;
    }
    walk.around.finish();
    walk.seen.odd = match reference {
        Some(_) => walk.beside.largest,
        None => walk.around.largest,
    };
    Ok(walk.seen)
}

/// The group of place `i` of `count`, in `groups` groups.
fn group(i: u32, count: u32, groups: usize) -> usize {
    (u64::from(i) * groups as u64 / u64::from(count)) as usize
}

/// The larger peak; the first among equals.
fn raise(peak: &mut Option<Peak>, size: u32, at: u32) {
    if peak.is_none_or(|peak| size > peak.size) {
        *peak = Some(Peak { size, at });
    }
}

struct Walk<'a> {
    seen: Seen,
    reference: &'a [i16],
    /// Samples so far, and the last of them.
    at: u32,
    last: Option<i16>,
    /// What the block before ended with, the newest first.
    ended: Option<[i16; 2]>,
    played: Vec<i16>,
    around: Around,
    beside: Beside,
}

impl<'a> Walk<'a> {
    fn new(image: &Image, reference: &'a [i16], compared: bool) -> Self {
        let head = *image.head();
        let frames = head.total.div_ceil(14);
        let (low, high) = (i16::MAX, i16::MIN);
        let column = Column { low, high, samples: 0, squares: 0, distance: 0, bound: 0 };
        let columns = vec![column; head.total.min(COLUMNS) as usize];
        let cells = vec![Cell::default(); frames.min(COLUMNS) as usize];
        let seams = Seams { columns: vec![false; columns.len()], ..Seams::default() };
        let reference_len = reference.len();
        let distance = compared.then_some(Distance { largest: None, exponent: 0, reference_len });
        let looped = Looped::of(image);
        let (jump, odd) = (None, None);
        let seen = Seen { head, frames, columns, cells, jump, odd, seams, looped, distance };
        let (around, beside) = (Around::default(), Beside::default());
        Self { seen, reference, at: 0, last: None, ended: None, played: vec![], around, beside }
    }

    fn block(&mut self, block: &Block) -> Result<(), Refusal> {
        self.seam(block.context.last_samples);
        let mut played = std::mem::take(&mut self.played);
        played.resize(block.sample_count(), 0);
        let after = block.play(&mut played)?;
        for (bytes, samples) in block.bytes.chunks(8).zip(played.chunks(14)) {
            self.frame(bytes[0]);
            for sample in samples {
                self.sample(*sample, bytes[0] & 15);
            }
        }
        self.played = played;
        self.ended = Some(after.context.last_samples);
        Ok(())
    }

    /// Compares the entry's history with what the block before ended with.
    fn seam(&mut self, history: [i16; 2]) {
        let Some(ended) = self.ended else { return };
        let off = off(history, ended);
        if off > 0 {
            let g = self.column();
            let seams = &mut self.seen.seams;
            seams.count += 1;
            seams.columns[g] = true;
            raise(&mut seams.largest, off.into(), self.at);
        }
    }

    fn frame(&mut self, header: u8) {
        let c = group(self.at / 14, self.seen.frames, self.seen.cells.len());
        let cell = &mut self.seen.cells[c];
        cell.exponents[usize::from(header & 15)] += 1;
        cell.predictors[usize::from(header >> 4 & 7)] += 1;
    }

    fn sample(&mut self, sample: i16, exponent: u8) {
        let g = self.column();
        let gathered = self.seen.gathered();
        let column = &mut self.seen.columns[g];
        let also = self.last.filter(|_| gathered).unwrap_or(sample);
        column.low = column.low.min(sample).min(also);
        column.high = column.high.max(sample).max(also);
        column.samples += 1;
        column.squares += u64::from(sample.unsigned_abs()).pow(2);
        if let Some(last) = self.last {
            let size = sample.abs_diff(last).into();
            raise(&mut self.seen.jump, size, self.at);
            self.around.push(size);
        }
        self.compare(g, sample, exponent);
        self.last = Some(sample);
        self.at += 1;
    }

    /// Compares a sample with the reference, if that has one at its place.
    fn compare(&mut self, g: usize, sample: i16, exponent: u8) {
        let Some(original) = self.reference.get(self.at as usize) else { return };
        let Some(distance) = &mut self.seen.distance else { return };
        let jump = self.last.map(|last| u32::from(sample.abs_diff(last)));
        self.beside.push(*original, bound(exponent), jump, self.at);
        let size = u32::from(sample.abs_diff(*original));
        let column = &mut self.seen.columns[g];
        column.distance = column.distance.max(size);
        column.bound = column.bound.max(bound(exponent).unwrap_or(0));
        raise(&mut distance.largest, size, self.at);
        if distance.largest.is_some_and(|largest| largest.at == self.at) {
            distance.exponent = exponent;
        }
    }

    /// The column of the next sample.
    fn column(&self) -> usize {
        group(self.at, self.seen.head.total, self.seen.columns.len())
    }
}
