//! A loop's entry damaged in all ways.

use crate::c_calls::{
    compare_body, compare_open, compare_play, compare_play_all, compare_play_from, compare_same,
    located, right_run,
};
use crate::reading;
use crate::tally::Tally;
use crate::turns::compare_turns;
use image_list::{
    HEAD, change, damage_loop, damaged, loop_frame, loop_place, random_turns, reader,
};
use oracle::random::Random;

/// Each byte of the entry, both of the head's mark of it and the header of its frame, by each bit and at random; then other damages of it, and any.
pub fn compare_damages(random: &mut Random, image: &[u8], tally: &mut Tally) {
    let place = loop_place(image);
    for place in (place..place + 16).chain([HEAD - 6, HEAD - 5, loop_frame(image)]) {
        for change in (0..8).map(|bit| 1 << bit).chain([change(random)]) {
            let mut damaged = image.to_vec();
            damaged[place] ^= change;
            compare(random, &damaged, image, tally);
        }
    }
    for _ in 0..20 {
        let mut altered = image.to_vec();
        damage_loop(random, &mut altered);
        compare(random, &altered, image, tally);
        let any = damaged(random, image);
        compare(random, &any, image, tally);
    }
}

/// Opening and playing the loop; sometimes all calls.
fn compare(random: &mut Random, damaged: &[u8], whole: &[u8], tally: &mut Tally) {
    let read = reader::open(damaged);
    compare_open(damaged, &read, tally);
    reading::compare_open(damaged, tally);
    let (times, room) = random_turns(random, whole);
    compare_turns(damaged, &read, times, room, tally);
    if random.below(16) > 0 {
        return;
    }
    let (k, first) = (random.below(3) as u32, random.below(30) as u32);
    compare_body(damaged, &read, k, tally);
    compare_play(damaged, &read, k, room, tally);
    compare_play_all(damaged, &read, room, tally);
    let run = right_run(&located(&read), first, room);
    compare_play_from(damaged, &run, first, room, tally);
    compare_same(damaged, whole, tally);
    compare_same(whole, damaged, tally);
}
