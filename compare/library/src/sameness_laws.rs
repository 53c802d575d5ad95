//! Three images, each compared with each through C and through the crate, and what must hold of the answers together.

use crate::c_calls::{self, shown};
use crate::convert::refused;
use crate::ffi;
use crate::reading;
use crate::tally::Tally;
use doilycairn::Image;
use image_list::reader::Refused;
use image_list::{Counted, Sameness, counted};

/// Three images, and what counts of each or why comparing refuses it.
pub struct Triple {
    images: [Vec<u8>; 3],
    counted: [Result<Counted, Refused>; 3],
}

impl Triple {
    pub fn new(images: [Vec<u8>; 3]) -> Self {
        let counted = images.each_ref().map(|image| counted(image));
        Self { images, counted }
    }

    /// Each image compared with each, itself too; and the laws.
    pub fn compare(&self, tally: &mut Tally) {
        for i in 0..3 {
            for j in 0..3 {
                let (first, second) = (&self.images[i], &self.images[j]);
                let right = self.right(i, j);
                c_calls::compare_sameness(first, second, &right, tally);
                reading::compare_sameness(first, second, &right, tally);
                compare_opened(first, second, &right, tally);
            }
        }
        self.compare_laws(tally);
    }

    /// How two of the images compare; the first is tested before the second.
    fn right(&self, i: usize, j: usize) -> Result<Sameness, Refused> {
        let first = self.counted[i].as_ref().map_err(|refused| *refused)?;
        let second = self.counted[j].as_ref().map_err(|refused| *refused)?;
        Ok(first.compare(second))
    }

    /// What the library answers on two of the images, where it accepts both.
    fn library(&self, i: usize, j: usize) -> Option<Sameness> {
        let (first, second) = (&self.images[i], &self.images[j]);
        let [same, sounds_same] = [ffi::same(first, second), ffi::sounds_same(first, second)];
        let is_accepted = (same.code, sounds_same.code) == (0, 0);
        is_accepted.then_some(Sameness { same: same.same == 1, sounds_same: sounds_same.same == 1 })
    }

    /// The library's own answers: reflexive, symmetric and transitive, and images that are the same sound the same.
    fn compare_laws(&self, tally: &mut Tally) {
        for i in 0..3 {
            let (next, last) = ((i + 1) % 3, (i + 2) % 3);
            if let Some(answer) = self.library(i, i) {
                self.holds("reflexive", answer.same && answer.sounds_same, tally);
            }
            let Some(one) = self.library(i, next) else { continue };
            self.holds("symmetric", self.library(next, i) == Some(one), tally);
            if one.same {
                self.holds("same is the same sound", one.sounds_same, tally);
            }
            let (Some(two), Some(across)) = (self.library(next, last), self.library(i, last))
            else {
                continue;
            };
            if one.same && two.same {
                self.holds("transitive", across.same, tally);
            }
            if one.sounds_same && two.sounds_same {
                self.holds("transitive by sound", across.sounds_same, tally);
            }
        }
    }

    fn holds(&self, law: &'static str, is_so: bool, tally: &mut Tally) {
        tally.compare(law, &self.images.each_ref().map(|image| shown(image)), is_so, true);
    }
}

/// The same of opened images.
fn compare_opened(
    first: &[u8],
    second: &[u8],
    right: &Result<Sameness, Refused>,
    tally: &mut Tally,
) {
    let (Ok(one), Ok(other)) = (Image::open(first), Image::open(second)) else { return };
    let input = (shown(first), shown(second));
    let library = one.same(&other).map_err(refused);
    tally.compare("Image::same", &input, library, right.map(|right| right.same));
    let library = one.sounds_same(&other).map_err(refused);
    tally.compare("Image::sounds_same", &input, library, right.map(|right| right.sounds_same));
}
