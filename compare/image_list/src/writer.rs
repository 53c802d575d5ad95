//! Writes a case: puts what images lack, and makes calls on them.

use crate::call::Call;
use crate::case::{Case, LINE, Machine, Step, To};
use crate::reader::open;
use oracle::address_to_sample;
use oracle::random::Random;

/// A case that is being written, the bytes that were put, and the lengths that are lent.
#[derive(Default)]
pub struct Writer {
    steps: Vec<Step>,
    machine: Machine,
    lens: [usize; 2],
}

impl Writer {
    /// Starts with twice the same image.
    pub fn new(image: &[u8]) -> Self {
        let mut writer = Self::default();
        writer.put(To::Both, image);
        writer.lens = [image.len(); 2];
        writer
    }

    pub fn finish(self) -> Case {
        Case(self.steps)
    }

    /// Makes the first image this one.
    pub fn first(&mut self, image: &[u8]) -> &mut Self {
        self.put(To::First, image);
        self.lens[0] = image.len();
        self
    }

    /// Makes the second image this one.
    pub fn second(&mut self, image: &[u8]) -> &mut Self {
        self.put(To::Second, image);
        self.lens[1] = image.len();
        self
    }

    pub fn call(&mut self, call: Call) -> &mut Self {
        self.steps.push(Step::Call { call, lens: self.lens });
        self
    }

    pub fn open(&mut self) -> &mut Self {
        self.call(Call::Open)
    }

    /// Finds a block's body, and plays the block with a room.
    pub fn block(&mut self, k: u32, room: usize) -> &mut Self {
        self.call(Call::Body { k }).call(Call::Play { k, room })
    }

    /// Plays all blocks with a room.
    pub fn all(&mut self, room: usize) -> &mut Self {
        self.call(Call::PlayAll { room })
    }

    /// Plays from a sample on with a room.
    pub fn from(&mut self, first: u32, room: usize) -> &mut Self {
        self.call(Call::PlayFrom { first, room })
    }

    /// Plays the loop some times over with a room.
    pub fn turns(&mut self, times: u32, room: usize) -> &mut Self {
        self.call(Call::PlayLoop { times, room })
    }

    /// Compares both ways.
    pub fn both_ways(&mut self) -> &mut Self {
        self.call(Call::Same).call(Call::Reversed)
    }

    /// Compares both ways, also by the sound alone.
    pub fn all_ways(&mut self) -> &mut Self {
        self.both_ways().call(Call::SoundsSame).call(Call::SoundsReversed)
    }

    /// Compares one of both ways.
    pub fn one_way(&mut self, random: &mut Random) -> &mut Self {
        self.call([Call::Same, Call::Reversed][random.below(2)])
    }

    /// The samples of block k of the first image; 3 where there is none.
    pub fn samples(&self, k: u32) -> usize {
        let opened = open(&self.machine.images[0][..self.lens[0]]);
        let nibbles = opened.ok().and_then(|opened| Some(opened.entries.get(k as usize)?.nibbles));
        nibbles.map_or(3, address_to_sample)
    }

    /// Puts the bytes that differ, as few lines as there can be.
    fn put(&mut self, to: To, image: &[u8]) {
        let mut place = 0;
        while let Some(from) = (place..image.len()).find(|place| self.lacks(to, image, *place)) {
            let most = image.len().min(from + LINE);
            let last = (from..most).rfind(|place| self.lacks(to, image, *place));
            place = last.map_or(from, |last| last + 1);
            let step = Step::Put { to, place: from, bytes: image[from..place].to_vec() };
            self.machine.take(&step);
            self.steps.push(step);
        }
    }

    /// Whether a byte has yet to be put.
    fn lacks(&self, to: To, image: &[u8], place: usize) -> bool {
        let [first, second] =
            self.machine.images.each_ref().map(|now| now.get(place) != image.get(place));
        first && to != To::Second || second && to != To::First
    }
}
