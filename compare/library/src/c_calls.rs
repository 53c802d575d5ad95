//! Each call that reads an image, through C and as documents 01 and 02 say, every field of its answer and the whole output.

use crate::ffi::{self, Body, Comparison, Context, Head, Loop, Opening, Part, Playback, Turns};
use crate::reading::pattern;
use crate::tally::Tally;
use image_list::reader::{Opened, Played, Refused};
use image_list::{Located, LoopEntry, Run, Sameness, sameness};
use oracle::FrameContext;

/// An image as it is read, whether it opens or not.
pub type Read<'i> = Result<Opened<'i>, Refused>;

/// The code and the entry of an answer.
fn begun<T>(answer: &Result<T, Refused>) -> (u32, u32) {
    answer.as_ref().err().map_or((0, 0), |refused| (refused.code.into(), refused.block))
}

/// What is shown of an image where answers differ.
pub fn shown(image: &[u8]) -> &[u8] {
    &image[..image.len().min(1000)]
}

pub fn context(context: FrameContext) -> Context {
    let FrameContext { predictor_and_scale, last_samples } = context;
    Context { predictor_and_scale, last_samples }
}

fn head(opened: &Opened) -> Head {
    let Opened { total, rate, block, gain, coefficients, .. } = *opened;
    Head { total, rate, block, gain, coefficients, blocks: opened.entries.len() as u32 }
}

/// The loop that an entry says, and its context.
fn looped(entry: LoopEntry) -> (Loop, Context) {
    let clip_list::Loop { start, end } = entry.looped;
    (Loop { start, end, present: 1 }, context(entry.context))
}

/// Opens an image.
pub fn compare_open(image: &[u8], read: &Read, tally: &mut Tally) {
    let (code, entry) = begun(read);
    let head = read.as_ref().map(head).unwrap_or_default();
    let looped = read.as_ref().ok().and_then(|opened| opened.looped).map(looped);
    let (looped, loop_context) = looped.unwrap_or_default();
    let right = Opening { code, entry, head, looped, loop_context };
    tally.compare("open", &shown(image), ffi::open(image), right);
}

/// Finds the body of block `k`.
pub fn compare_body(image: &[u8], read: &Read, k: u32, tally: &mut Tally) {
    let found = opened(read).and_then(|opened| Ok((opened, opened.entry(k as usize)?)));
    let (code, entry) = begun(&found);
    let mut right = Body { code, entry, ..Body::default() };
    if let Ok((opened, found)) = found {
        right.offset = found.offset as u32;
        right.bytes = opened.body(found).len() as u32;
        right.nibbles = found.nibbles as u32;
        right.context = context(found.context);
    }
    tally.compare("block_body", &(shown(image), k), ffi::block_body(image, k), right);
}

/// The image where it opens, else why not.
fn opened<'r, 'i>(read: &'r Read<'i>) -> Result<&'r Opened<'i>, Refused> {
    read.as_ref().map_err(|refused| *refused)
}

/// Plays block `k` with a room.
pub fn compare_play(image: &[u8], read: &Read, k: u32, room: usize, tally: &mut Tally) {
    let mut out = pattern(room);
    let library = ffi::play(image, k, &mut out);
    let played = opened(read).and_then(|opened| opened.play(k as usize, room));
    let (right, right_out) = right_playback(room, played);
    tally.compare("play", &(shown(image), k, room), library, right);
    tally.compare("play's output", &(shown(image), k, room), out, right_out);
}

/// Plays all blocks with a room.
pub fn compare_play_all(image: &[u8], read: &Read, room: usize, tally: &mut Tally) {
    let mut out = pattern(room);
    let library = ffi::play_all(image, &mut out);
    let played = opened(read).and_then(|opened| opened.play_all(room));
    let (right, right_out) = right_playback(room, played);
    tally.compare("play_all", &(shown(image), room), library, right);
    tally.compare("play_all's output", &(shown(image), room), out, right_out);
}

/// The answer of playing, and the output after it.
fn right_playback(room: usize, played: Played) -> (Playback, Vec<i16>) {
    let (code, entry) = begun(&played);
    let (samples, after) = played.unwrap_or_default();
    let mut out = pattern(room);
    out[..samples.len()].copy_from_slice(&samples);
    (Playback { code, entry, samples: samples.len() as u64, context: context(after) }, out)
}

/// The samples of an image and where they lie, or why it does not play.
pub fn located(read: &Read) -> Result<Located, Refused> {
    opened(read)?.located()
}

/// What should be played from a sample on.
pub fn right_run(located: &Result<Located, Refused>, first: u32, room: usize) -> Run {
    located.as_ref().map_err(|refused| *refused)?.run(first, room)
}

/// Plays a run, which is to be this one, from a sample on with a room.
pub fn compare_play_from(image: &[u8], right: &Run, first: u32, room: usize, tally: &mut Tally) {
    let mut out = pattern(room);
    let library = ffi::play_from(image, first, &mut out);
    let (code, entry) = begun(right);
    let (samples, blocks) = right.as_ref().map_or((&[][..], 0), |run| (&run.0[..], run.1));
    let mut right_out = pattern(room);
    right_out[..samples.len()].copy_from_slice(samples);
    let right = Part { code, entry, samples: samples.len() as u64, blocks };
    tally.compare("play_from", &(shown(image), first, room), library, right);
    tally.compare("play_from's output", &(shown(image), first, room), out, right_out);
}

/// Plays the loop some times over with a room.
pub fn compare_play_loop(image: &[u8], read: &Read, times: u32, room: usize, tally: &mut Tally) {
    let mut out = pattern(room);
    let library = ffi::play_loop(image, times, &mut out);
    let right = opened(read).and_then(|opened| opened.play_loop(times, room));
    let (code, entry) = begun(&right);
    let samples = right.unwrap_or_default();
    let mut right_out = pattern(room);
    right_out[..samples.len()].copy_from_slice(&samples);
    let right = Turns { code, entry, samples: samples.len() as u64 };
    tally.compare("play_loop", &(shown(image), times, room), library, right);
    tally.compare("play_loop's output", &(shown(image), times, room), out, right_out);
}

/// Compares two images, by all that counts and by the sound alone.
pub fn compare_same(first: &[u8], second: &[u8], tally: &mut Tally) {
    compare_sameness(first, second, &sameness(first, second), tally);
}

/// Compares two images, of which it is told how they compare.
pub fn compare_sameness(
    first: &[u8],
    second: &[u8],
    right: &Result<Sameness, Refused>,
    tally: &mut Tally,
) {
    let (code, entry) = begun(right);
    let Sameness { same, sounds_same } = right.unwrap_or_default();
    let [same, sounds_same] =
        [same, sounds_same].map(|same| Comparison { code, entry, same: same.into() });
    let input = (shown(first), shown(second));
    tally.compare("same", &input, ffi::same(first, second), same);
    tally.compare("sounds_same", &input, ffi::sounds_same(first, second), sounds_same);
}
