//! Pairs of images of which comparing refuses one or both, of the fixed list.

use crate::case::Case;
use crate::damage::{LOWEST, MARK_END, PAIRS, loop_place};
use crate::fault::Fault;
use crate::made::{Clip, with, with_others};
use crate::writer::Writer;
use clip_list::Loop;
use oracle::random::Random;

/// Images that nothing, 15, 13, 20, 21, 22 and 24 refuse, compared in every order; the blocks tell which of the two is named.
pub fn refused_pairs(random: &mut Random) -> Case {
    let image = Clip::new(random, 45, 8).image_with(Some(Loop { start: 20, end: 45 }));
    let firsts = one_for_each_reason(random, &image, [0, 1, 2]);
    let seconds = one_for_each_reason(random, &image, [1, 0, 0]);
    let mut case = Writer::new(&image);
    for first in &firsts {
        for second in &seconds {
            case.first(first).second(second).all_ways();
        }
    }
    case.finish()
}

/// An image that is accepted and six that are not; three have their bad entries at these blocks.
fn one_for_each_reason(random: &mut Random, image: &[u8], blocks: [usize; 3]) -> Vec<Vec<u8>> {
    let mut images = vec![image.to_vec(), with(image, MARK_END, &[0]), with(image, PAIRS, &LOWEST)];
    let faults = [Fault::Offset, Fault::ZeroBytes, Fault::LowerHeader];
    for (fault, k) in faults.into_iter().zip(blocks) {
        let place = fault.place(random, image, k);
        images.push(with_others(random, image, &[place]));
    }
    images.push(with_others(random, image, &[loop_place(image) + 14]));
    images
}
