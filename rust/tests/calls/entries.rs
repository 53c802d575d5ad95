//! Which entry of a damaged table is named, and by which refusal.

use crate::clips::{Random, encode, noise};
use crate::reading;
use doilycairn::{Image, Refusal, same, sounds_same};
use std::collections::BTreeSet;

/// Why an image does not open: what its bytes tell, and what comparing says too.
fn refused(bytes: &[u8], whole: &[u8]) -> Option<Refusal> {
    let why = Image::open(bytes).err();
    assert_eq!(why, reading::refusal(bytes));
    if let Some(why) = why {
        for compare in [same, sounds_same] {
            assert_eq!(compare(bytes, whole), Err(why));
            assert_eq!(compare(whole, bytes), Err(why));
        }
    }
    why
}

/// The image with each of these bytes turned over in some bits.
fn altered(whole: &[u8], places: &[(usize, u8)]) -> Vec<u8> {
    let mut bytes = whole.to_vec();
    for &(place, bits) in places {
        bytes[place] ^= bits;
    }
    bytes
}

/// Entries at 56 and 72, bodies at 88 and 96.
#[test]
fn the_worked_table() {
    let whole = encode(&noise(15, 9000, 1), 8);
    assert_eq!(whole.len(), 98);
    for (places, why) in [
        (&[59][..], Refusal::BadOffset { block: 0 }),
        (&[79], Refusal::BadLength { block: 1 }),
        (&[87], Refusal::BadLength { block: 1 }),
        (&[64], Refusal::BadHeader { block: 0 }),
        (&[96], Refusal::BadHeader { block: 1 }),
        (&[65, 75], Refusal::BadHeader { block: 0 }),
        (&[71, 65], Refusal::BadLength { block: 0 }),
        (&[55, 59], Refusal::BadHead),
    ] {
        for bit in 0..8 {
            let places: Vec<_> = places.iter().map(|&place| (place, 1 << bit)).collect();
            assert_eq!(refused(&altered(&whole, &places), &whole), Some(why), "{places:?}");
        }
    }
}

/// The refusal that a byte of a table of 4 blocks or of the bodies (of 16 bytes) after it calls for, if it is altered alone.
fn called_for(place: usize) -> Option<Refusal> {
    let block = (place as u32 - 56) / 16;
    match (block, (place - 56) % 16) {
        (0..4, 0..4) => Some(Refusal::BadOffset { block }),
        (0..4, 4..8 | 14..16) => Some(Refusal::BadLength { block }),
        (0..4, 8..10) => Some(Refusal::BadHeader { block }),
        (4.., 0) => Some(Refusal::BadHeader { block: block - 4 }),
        _ => None,
    }
}

/// Of two refusals, the one of the lower entry, or within an entry the one of the lower number.
fn first(a: Option<Refusal>, b: Option<Refusal>) -> Option<Refusal> {
    a.into_iter().chain(b).min_by_key(|why| (why.block(), why.number()))
}

#[test]
fn every_pair_of_bytes_of_table_and_bodies() {
    let whole = encode(&noise(100, 9000, 2), 16);
    let places = 56..whole.len();
    assert_eq!(Image::open(&whole).unwrap().head().blocks, 4);
    let mut seen = BTreeSet::new();
    for (a, b) in places.clone().flat_map(|a| (a + 1..places.end).map(move |b| (a, b))) {
        let why = refused(&altered(&whole, &[(a, 0x11), (b, 0x24)]), &whole);
        assert_eq!(why, first(called_for(a), called_for(b)), "{a} {b}");
        seen.insert(why);
    }
    assert_eq!(seen.len(), 1 + 3 * 4);
}

/// A header and the first byte of its body, altered alike, are still equal.
#[test]
fn a_header_altered_in_both_places_opens() {
    let whole = encode(&noise(100, 9000, 2), 16);
    for block in 0..4 {
        let (entry, body) = (56 + 16 * block + 9, 56 + 16 * 4 + 16 * block);
        assert_eq!(refused(&altered(&whole, &[(entry, 1), (body, 1)]), &whole), None);
    }
}

#[test]
fn a_bad_entry_far_down() {
    let blocks = 5000;
    let whole = encode(&vec![0; 14 * blocks], 8);
    for block in [0, 1, 255, 256, 4998, 4999] {
        for (place, number) in [(0, 20), (3, 20), (4, 21), (7, 21), (15, 21), (8, 22), (9, 22)] {
            let later = if block + 1 < blocks { 16 * (block + 1) } else { 16 * block };
            let places = [(56 + 16 * block + place, 1), (56 + later + 9, 2)];
            let why = refused(&altered(&whole, &places), &whole).unwrap();
            assert_eq!((why.number(), why.block()), (number, Some(block as u32)));
        }
    }
}

#[test]
fn many_bytes_at_once() {
    let mut random = Random(11);
    let whole = encode(&noise(400, 9000, 3), 24);
    let blocks = Image::open(&whole).unwrap().head().blocks;
    let mut seen = BTreeSet::new();
    for _ in 0..20_000 {
        let from = 56 * (random.next() as usize % 2);
        let count = 1 + random.next() % 6;
        let mut place = || from + random.next() as usize % (whole.len() - from);
        let places: Vec<_> = (0..count).map(|turn| (place(), 1 << turn)).collect();
        seen.insert(refused(&altered(&whole, &places), &whole));
    }
    assert_eq!(seen.len() as u32, 2 + 3 * blocks);
}
