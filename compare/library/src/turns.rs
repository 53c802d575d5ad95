//! The loop of an image, told and played: through C, and where the image opens through the crate.

use crate::c_calls::{self, Read, shown};
use crate::convert::{context, looped, refused};
use crate::ffi;
use crate::reading::pattern;
use crate::tally::Tally;
use clip_list::Loop;
use doilycairn::Image;
use image_list::reader::{self, Opened};
use oracle::FrameContext;

/// Whether there is a loop, its start and its end; and its context.
type Told = ([u32; 3], FrameContext);

fn told(looped: Option<(Loop, FrameContext)>) -> Told {
    let of = |(Loop { start, end }, context)| ([1, start, end], context);
    looped.map_or(([0; 3], FrameContext::default()), of)
}

/// The loop that an image tells.
pub fn compare_told(bytes: &[u8], image: &Image, opened: &Opened, tally: &mut Tally) {
    let library = image.looped().zip(image.loop_context());
    let library = told(library.map(|(library, after)| (looped(library), context(after))));
    let right = told(opened.looped.map(|entry| (entry.looped, entry.context)));
    tally.compare("looped", &shown(bytes), library, right);
}

/// The samples of an image's loop.
pub fn samples_of_loop(opened: &Opened) -> usize {
    opened.looped.map_or(0, |entry| (entry.looped.end - entry.looped.start) as usize)
}

/// Plays the loop some times over with a room.
pub fn compare_turns(bytes: &[u8], read: &Read, times: u32, room: usize, tally: &mut Tally) {
    c_calls::compare_play_loop(bytes, read, times, room, tally);
    if let (Ok(image), Ok(opened)) = (Image::open(bytes), read) {
        compare_crate(bytes, &image, opened, (times, room), tally);
    }
}

/// The same through the crate, and where that is not too much also to a vector of its own.
fn compare_crate(
    bytes: &[u8],
    image: &Image,
    opened: &Opened,
    (times, room): (u32, usize),
    tally: &mut Tally,
) {
    let input = (shown(bytes), times, room);
    let mut out = pattern(room);
    let library = image.play_loop_into(times, &mut out).map_err(refused);
    let right = opened.play_loop(times, room);
    let mut right_out = pattern(room);
    let right = right.map(|samples| {
        right_out[..samples.len()].copy_from_slice(&samples);
        samples.len() as u64
    });
    tally.compare("Image::play_loop_into", &input, (library, out), (right, right_out));
    let needed = samples_of_loop(opened) * times as usize;
    if needed <= 4 * opened.total as usize {
        let library = image.play_loop(times).map_err(refused);
        tally.compare("Image::play_loop", &input, library, opened.play_loop(times, needed));
    }
}

/// Plays the loop none to three times and very often, with as much room as needed, with more and with less.
pub fn compare_all_turns(bytes: &[u8], tally: &mut Tally) {
    let read = reader::open(bytes);
    let once = read.as_ref().map_or(1, samples_of_loop);
    for times in 0..4 {
        let needed = once * times as usize;
        let rooms = [needed, needed + 3, needed.saturating_sub(1)];
        rooms.iter().for_each(|room| compare_turns(bytes, &read, times, *room, tally));
    }
    for times in [4, 1 << 31, u32::MAX] {
        compare_turns(bytes, &read, times, 3 * once, tally);
    }
}

/// Plays the loop of a clip's image from its first sample on, which gives one turn.
pub fn compare_part(bytes: &[u8], tally: &mut Tally) {
    let Ok(opened) = reader::open(bytes) else { return };
    let Some(entry) = opened.looped else { return };
    let mut out = pattern(samples_of_loop(&opened));
    ffi::play_from(bytes, entry.looped.start, &mut out);
    let right = opened.play_loop(1, out.len());
    tally.compare("loop by play_from", &shown(bytes), Ok(out), right);
}
