//! Images that are compared with others of the same clip.

use crate::convert::number;
use crate::encoding::size;
use crate::reading::compare_same;
use crate::tally::Tally;
use clip_list::{Start, image_of, with_random_loop};
use image_list::with_nibble;
use oracle::random::Random;

/// The image with itself, at another block size, with another loop, with one nibble changed, and with a sample less.
pub fn compare_clips(
    random: &mut Random,
    start: &Start,
    samples: &[i16],
    image: &[u8],
    tally: &mut Tally,
) {
    let mut sure = |first: &[u8], second: &[u8], right: bool, sounds: bool| {
        let library = doilycairn::same(first, second).map_err(number);
        tally.compare("same as known", &(first, second), library, Ok(right));
        let library = doilycairn::sounds_same(first, second).map_err(number);
        tally.compare("sound as known", &(first, second), library, Ok(sounds));
    };
    sure(image, image, true, true);
    let other = Start { size: size(random), ..start.clone() };
    let other = with_random_loop(random, other);
    let is_same = (other.block(), other.looped) == (start.block(), start.looped);
    let other = image_of(&other, &[samples]);
    sure(image, &other, is_same, true);
    if let [less @ .., _] = samples
        && !less.is_empty()
    {
        let total = less.len() as u32;
        let looped = start.looped.filter(|looped| looped.is_within(total));
        let fewer = image_of(&Start { total, looped, ..start.clone() }, &[less]);
        sure(image, &fewer, false, false);
    }
    compare_same(image, &other, tally);
    let changed = with_nibble(random, image);
    compare_same(image, &changed, tally);
    compare_same(&changed, &other, tally);
}
