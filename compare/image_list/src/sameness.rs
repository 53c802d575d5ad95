//! Images that are compared, of the fixed list.

use crate::case::Case;
use crate::damage::{ENTRY, HEAD, table};
use crate::made::{Clip, any_image, clip_image, with};
use crate::writer::Writer;
use oracle::random::Random;

/// Pairs of images, most of which open.
pub fn sameness(random: &mut Random) -> Vec<Case> {
    let mut cases = vec![free(random), silent(random)];
    cases.extend(other_sizes(random));
    cases.extend(fewer(random));
    cases.extend(nibbles(random));
    cases
}

/// The same sound at other block sizes.
fn other_sizes(random: &mut Random) -> Vec<Case> {
    let mut cases = vec![];
    for total in [1, 14, 29, 43, 100, 180] {
        let clip = Clip::new(random, total, 8);
        let mut case = Writer::new(&clip.image());
        for size in [16, 31, 40, 200] {
            case.second(&clip.image_at(size)).both_ways();
        }
        cases.push(case.finish());
    }
    cases
}

/// Clips whose first samples are the same.
fn fewer(random: &mut Random) -> Vec<Case> {
    let mut cases = vec![];
    for (total, fewer) in [(2, 1), (15, 14), (30, 29), (57, 29)] {
        let clip = Clip::new(random, total, 16);
        let mut case = Writer::new(&clip.image());
        case.second(&clip.image_of_first(fewer)).both_ways();
        cases.push(case.finish());
    }
    cases
}

/// Each nibble of the bodies altered in turn, headers and padding too; a block's header is altered with its entry's.
fn nibbles(random: &mut Random) -> Vec<Case> {
    let mut cases = vec![];
    let images = [clip_image(random, 31, 16), any_image(random, 19, 8)];
    for (image, block) in images.iter().zip([16, 8]) {
        let bodies = table(image);
        let mut case = Writer::new(image);
        for place in bodies..image.len() {
            for shift in [0, 4] {
                let other = image[place] ^ ((1 + random.below(15) as u8) << shift);
                let mut altered = with(image, place, &[other]);
                if (place - bodies) % block == 0 {
                    altered[HEAD + ENTRY * ((place - bodies) / block) + 9] = other;
                }
                case.first(&altered).one_way(random);
            }
        }
        cases.push(case.finish());
    }
    cases
}

/// Rate, gain and histories altered, coefficients too, and the bit of a header that has no meaning.
fn free(random: &mut Random) -> Case {
    let image = clip_image(random, 29, 16);
    let bodies = table(&image);
    let mut case = Writer::new(&image);
    for place in [8, 9, 10, 11, 48, 49, HEAD + 10, HEAD + 13, HEAD + ENTRY + 11, HEAD + ENTRY + 12]
    {
        case.first(&with(&image, place, &[image[place] ^ 1])).open().both_ways();
    }
    for place in (16..48).step_by(2) {
        case.first(&with(&image, place, &[image[place] ^ 4])).both_ways();
    }
    let unused = [image[bodies] ^ 0x80];
    let altered = with(&with(&image, bodies, &unused), HEAD + 9, &unused);
    case.first(&altered).block(0, 28).both_ways();
    case.finish()
}

/// Silence under any coefficients, and under other ones.
fn silent(random: &mut Random) -> Case {
    let mut clip = Clip { samples: vec![0; 45], ..Clip::new(random, 45, 16) };
    clip.start.history = [0; 2];
    let mut case = Writer::new(&clip.image());
    for _ in 0..4 {
        clip.start.coefficients = random.coefficients();
        case.first(&clip.image()).open().both_ways();
    }
    case.finish()
}
