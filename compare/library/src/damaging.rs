//! An image damaged in all ways, each call on it compared through C.

use crate::c_calls::{
    Read, compare_body, compare_open, compare_play, compare_play_all, compare_play_from,
    compare_play_loop, compare_same, located, right_run,
};
use crate::tally::Tally;
use image_list::reader;
use image_list::{
    FAULTS, HEAD, LOWEST, MARK_END, PAIRS, block_count, body, change, has_loop, loop_frame,
    loop_place, random_turns, table,
};
use oracle::address_to_sample;
use oracle::random::Random;

/// Bytes and what makes them others.
type Changes = [(usize, u8)];

/// Alters bytes; a second time puts them back.
fn alter(image: &mut [u8], changes: &Changes) {
    changes.iter().for_each(|(place, change)| image[*place] ^= change);
}

/// The bytes of head and table, each body's first byte, and that of the frame that holds the loop's start.
fn tested_places(image: &[u8]) -> Vec<usize> {
    let bodies = (0..block_count(image)).map(|k| body(image, k));
    let mut places: Vec<_> = (0..table(image)).chain(bodies).collect();
    if has_loop(image) && !places.contains(&loop_frame(image)) {
        places.push(loop_frame(image));
    }
    places
}

/// An image whose bytes are altered, and as it was.
pub struct Damaging<'a> {
    random: &'a mut Random,
    tally: &'a mut Tally,
    image: Vec<u8>,
    whole: &'a [u8],
}

impl<'a> Damaging<'a> {
    pub fn new(random: &'a mut Random, tally: &'a mut Tally, whole: &'a [u8]) -> Self {
        Self { random, tally, image: whole.to_vec(), whole }
    }

    /// Each byte: each of its bits, and any other byte.
    pub fn bytes(&mut self) {
        for place in tested_places(self.whole) {
            for bit in 0..8 {
                self.compare_with(&[(place, 1 << bit)]);
            }
            let other = change(self.random);
            self.compare_with(&[(place, other)]);
        }
    }

    /// All pairs of bytes, sometimes altered alike.
    pub fn pairs(&mut self) {
        let places = tested_places(self.whole);
        for (i, second) in places.iter().enumerate() {
            for first in &places[..i] {
                let other = change(self.random);
                let another = [other, change(self.random)][self.random.below(4).min(1)];
                self.compare_with(&[(*first, other), (*second, another)]);
            }
        }
    }

    /// Every shorter length, with a byte altered where it is there.
    pub fn lengths(&mut self) {
        let places = tested_places(self.whole);
        for len in 0..self.whole.len() {
            let changes = [(places[self.random.below(places.len())], change(self.random))];
            alter(&mut self.image, &changes);
            self.compare(len);
            alter(&mut self.image, &changes);
        }
    }

    /// Two images with every two damages, in every order.
    pub fn orders(&mut self) {
        let damages = damages(self.random, self.whole);
        let mut second = self.whole.to_vec();
        for changes in &damages {
            alter(&mut self.image, changes);
            for others in &damages {
                alter(&mut second, others);
                compare_same(&self.image, &second, self.tally);
                alter(&mut second, others);
            }
            alter(&mut self.image, changes);
        }
    }

    /// All calls on the image with bytes altered.
    pub fn compare_with(&mut self, changes: &Changes) {
        alter(&mut self.image, changes);
        self.compare(self.image.len());
        alter(&mut self.image, changes);
    }

    /// All calls on the first bytes of the image; where it opens, mostly this alone.
    fn compare(&mut self, len: usize) {
        let image = &self.image[..len];
        let read = reader::open(image);
        compare_open(image, &read, self.tally);
        if read.is_ok() && self.random.below(8) > 0 {
            return;
        }
        let k = block_number(self.random, block_count(self.whole));
        compare_body(image, &read, k, self.tally);
        let [one, all] = needed(&read, k).map(|needed| room(self.random, needed));
        compare_play(image, &read, k, one, self.tally);
        compare_play_all(image, &read, all, self.tally);
        let first = k.saturating_mul(samples_of_a_block(self.whole));
        let run = right_run(&located(&read), first, one);
        compare_play_from(image, &run, first, one, self.tally);
        let (times, room) = random_turns(self.random, self.whole);
        compare_play_loop(image, &read, times, room.max(1), self.tally);
        compare_same(image, self.whole, self.tally);
        compare_same(self.whole, image, self.tally);
    }
}

/// The samples of a whole block.
fn samples_of_a_block(image: &[u8]) -> u32 {
    reader::long(image, 12) / 8 * 14
}

/// The number of a block, sometimes of one that there is not.
fn block_number(random: &mut Random, blocks: usize) -> u32 {
    match random.below(16) {
        0 => blocks as u32,
        1 => u32::MAX,
        _ => random.below(blocks) as u32,
    }
}

/// The samples of a block and of the whole clip; one where they are not known.
fn needed(read: &Read, k: u32) -> [usize; 2] {
    let Ok(opened) = read else { return [1; 2] };
    let block = opened.entry(k as usize).map_or(1, |entry| address_to_sample(entry.nibbles));
    [block, opened.total as usize]
}

/// A room around the one that is needed, at least for one sample.
fn room(random: &mut Random, needed: usize) -> usize {
    (needed + random.below(3)).max(2) - 1
}

/// No damage; one for which 15 or 13 refuses; each fault of each entry and of the loop's, alone and with one of these two.
fn damages(random: &mut Random, image: &[u8]) -> Vec<Vec<(usize, u8)>> {
    let head = [MARK_END, 50, HEAD - 1][random.below(3)];
    let head = vec![(head, change(random))];
    let lowest: Vec<_> = (PAIRS..).zip(LOWEST).map(|(i, byte)| (i, image[i] ^ byte)).collect();
    let mut damages = vec![vec![], head.clone(), lowest.clone()];
    for bad in faults(random, image) {
        damages.push(vec![bad]);
        if random.below(6) == 0 {
            let with = [&head, &lowest][random.below(2)];
            damages.push([&with[..], &[bad]].concat());
        }
    }
    damages
}

/// Each fault of each entry, and of the loop's its start, end, header and zero bytes.
fn faults(random: &mut Random, image: &[u8]) -> Vec<(usize, u8)> {
    let mut faults = vec![];
    for k in 0..block_count(image) {
        faults.extend(FAULTS.map(|fault| (fault.place(random, image, k), change(random))));
    }
    if has_loop(image) {
        let entry = loop_place(image);
        faults.extend([0, 4, 9, 14, 15].map(|part| (entry + part, change(random))));
    }
    faults
}
