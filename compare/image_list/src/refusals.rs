//! Damaged images, of the fixed list.

use crate::call::Call;
use crate::case::Case;
use crate::damage::{ENTRY, HEAD, LOWEST, MARK_END, PAIRS, block_count, table};
use crate::made::{clip_image, with};
use crate::reader::long;
use crate::writer::Writer;
use oracle::random::Random;

/// The first entry's last zero byte: with another one there, 21 refuses.
const ZERO_END: usize = HEAD + 15;

/// Images that are refused, and others with the same bytes altered.
pub fn refusals(random: &mut Random) -> Vec<Case> {
    let mut cases = altered_bytes(random);
    cases.extend(altered_fields(random));
    cases.extend(shortened(random));
    cases.extend([no_samples(random), for_many_reasons(random)]);
    cases.extend([lowest_pairs(random), orders(random)]);
    cases
}

/// Each byte of head and table altered in turn.
fn altered_bytes(random: &mut Random) -> Vec<Case> {
    let mut cases = vec![];
    for (total, size) in [(1, 8), (16, 8), (29, 16)] {
        let image = clip_image(random, total, size);
        let mut case = Writer::new(&image);
        let rooms: Vec<_> = (0..block_count(&image)).map(|k| case.samples(k as u32)).collect();
        for place in 0..table(&image) {
            let other = image[place] ^ (1 + random.below(255) as u8);
            let k = random.below(rooms.len());
            let play = Call::Play { k: k as u32, room: rooms[k] };
            let play = [play, Call::PlayAll { room: total }][random.below(2)];
            case.first(&with(&image, place, &[other])).open().call(play).one_way(random);
        }
        cases.push(case.finish());
    }
    cases
}

/// N, rate, B, K, offsets and lengths near the right ones and at their limits. Of one frame every B within its limits would do.
fn altered_fields(random: &mut Random) -> Vec<Case> {
    let mut cases = vec![];
    for (total, size, places) in [
        (30, 16, &[4, 8, 12, 52, HEAD, HEAD + 4, HEAD + ENTRY, HEAD + ENTRY + 4][..]),
        (15, 8, &[4, 12, 52, HEAD + ENTRY, HEAD + ENTRY + 4]),
        (14, 8, &[4, 8, 12, 52]),
    ] {
        let image = clip_image(random, total, size);
        let mut case = Writer::new(&image);
        for place in places {
            for value in values(long(&image, *place)) {
                case.first(&with(&image, *place, &value.to_be_bytes())).open();
                if random.below(4) == 0 {
                    case.call(Call::Body { k: 0 });
                }
            }
        }
        cases.push(case.finish());
    }
    cases
}

/// Numbers near one, and limits.
fn values(right: u32) -> Vec<u32> {
    let near = [-14, -8, -1, 1, 4, 8, 14].map(|more| right.wrapping_add_signed(more));
    [&near[..], &[0, 8, 65_536, 65_544, 14_680_064, 14_680_065, u32::MAX]].concat()
}

/// An image of no samples, which has no blocks.
fn no_samples(random: &mut Random) -> Case {
    let image = clip_image(random, 1, 8);
    let none = with(&with(&image, 4, &[0; 4]), 52, &[0; 4]);
    let mut case = Writer::new(&image);
    for len in [HEAD, HEAD + 1, image.len()] {
        case.first(&none[..len]).open().block(0, 0).all(0).both_ways();
    }
    case.finish()
}

/// Images with fewer bytes than S, and with more.
fn shortened(random: &mut Random) -> Vec<Case> {
    let mut cases = vec![];
    for (total, size) in [(1, 8), (28, 8), (43, 24)] {
        let image = clip_image(random, total, size);
        let longer = [&image[..], &[0x44, 0x53, 0x50]].concat();
        let k = block_count(&image) as u32 - 1;
        let mut case = Writer::new(&image);
        let room = case.samples(k);
        let some = [0, 1, 4, 55, 56, 57, table(&image) - 1, table(&image), table(&image) + 1];
        let near = image.len() - 9..=longer.len();
        for len in some.into_iter().chain(near) {
            case.first(&longer[..len]).open().block(k, room).all(total).one_way(random);
        }
        cases.push(case.finish());
    }
    cases
}

/// Every choice of the five reasons for which playing is refused.
fn for_many_reasons(random: &mut Random) -> Case {
    let whole = clip_image(random, 29, 16);
    let mut case = Writer::new(&whole);
    for bad in 0..32 {
        let is_bad = |place: usize| bad >> place & 1 == 1;
        let mut image = whole.clone();
        if is_bad(0) {
            image[MARK_END] ^= 1;
        }
        if is_bad(1) {
            image[ZERO_END] = 1;
        }
        if is_bad(2) {
            image[PAIRS..PAIRS + 4].copy_from_slice(&LOWEST);
        }
        let k = if is_bad(3) { 2 } else { 0 };
        let less = usize::from(is_bad(4));
        case.first(&image).block(k, 28 - less).all(29 - less);
        if bad < 8 {
            case.open().both_ways();
        }
    }
    case.finish()
}

/// Two of -32,768 in each pair, in one and the next, and only one in a pair.
fn lowest_pairs(random: &mut Random) -> Case {
    let image = clip_image(random, 29, 16);
    let mut case = Writer::new(&image);
    let across = PAIRS + 2;
    let places = (PAIRS..HEAD - 8).step_by(4).chain((across..across + 28).step_by(4));
    let altered = places.map(|place| with(&image, place, &LOWEST)).chain(
        [[0x80, 0, 0x80, 1], [0x80, 1, 0x80, 0], [0x80, 0, 0, 0], [0, 0, 0x80, 0]]
            .map(|pair| with(&image, PAIRS, &pair)),
    );
    for altered in altered {
        case.first(&altered).open().block(1, 1).all(29).both_ways();
    }
    case.finish()
}

/// Every pair of a good image, another one, and images that are refused.
fn orders(random: &mut Random) -> Case {
    let image = clip_image(random, 29, 16);
    let images = [
        image.clone(),
        with(&image, table(&image) + 1, &[image[table(&image) + 1] ^ 0x70]),
        with(&image, MARK_END, &[0]),
        with(&image, ZERO_END, &[1]),
        with(&image, PAIRS, &LOWEST),
        with(&with(&image, PAIRS, &LOWEST), ZERO_END, &[1]),
        image[..image.len() - 1].to_vec(),
    ];
    let mut case = Writer::new(&image);
    for first in &images {
        for second in &images {
            case.first(first).second(second).call(Call::Same);
        }
    }
    case.finish()
}
