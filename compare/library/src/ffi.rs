//! The calls of include/doilycairn.h that read an image, as a C program makes them: on bytes that open and on others.

use std::mem::offset_of;

/// `doilycairn_context`.
#[repr(C)]
#[derive(Debug, Clone, Copy, Default, PartialEq)]
pub struct Context {
    pub predictor_and_scale: u16,
    pub last_samples: [i16; 2],
}

/// `doilycairn_head`.
#[repr(C)]
#[derive(Debug, Clone, Copy, Default, PartialEq)]
pub struct Head {
    pub total: u32,
    pub rate: u32,
    pub block: u32,
    pub gain: u16,
    pub coefficients: [i16; 16],
    pub blocks: u32,
}

/// `doilycairn_loop`; its `bool` as a byte, so that any byte can be compared.
#[repr(C)]
#[derive(Debug, Clone, Copy, Default, PartialEq)]
pub struct Loop {
    pub start: u32,
    pub end: u32,
    pub present: u8,
}

/// `doilycairn_opening`.
#[repr(C)]
#[derive(Debug, Clone, Copy, Default, PartialEq)]
pub struct Opening {
    pub code: u32,
    pub entry: u32,
    pub head: Head,
    pub looped: Loop,
    pub loop_context: Context,
}

/// `doilycairn_body`.
#[repr(C)]
#[derive(Debug, Clone, Copy, Default, PartialEq)]
pub struct Body {
    pub code: u32,
    pub entry: u32,
    pub offset: u32,
    pub bytes: u32,
    pub nibbles: u32,
    pub context: Context,
}

/// `doilycairn_playback`.
#[repr(C)]
#[derive(Debug, Clone, Copy, Default, PartialEq)]
pub struct Playback {
    pub code: u32,
    pub entry: u32,
    pub samples: u64,
    pub context: Context,
}

/// `doilycairn_part`.
#[repr(C)]
#[derive(Debug, Clone, Copy, Default, PartialEq)]
pub struct Part {
    pub code: u32,
    pub entry: u32,
    pub samples: u64,
    pub blocks: u32,
}

/// `doilycairn_turns`.
#[repr(C)]
#[derive(Debug, Clone, Copy, Default, PartialEq)]
pub struct Turns {
    pub code: u32,
    pub entry: u32,
    pub samples: u64,
}

/// `doilycairn_comparison`; its `bool` as a byte, so that any byte can be compared.
#[repr(C)]
#[derive(Debug, Clone, Copy, Default, PartialEq)]
pub struct Comparison {
    pub code: u32,
    pub entry: u32,
    pub same: u8,
}

const _: () = assert!(size_of::<Context>() == 6 && size_of::<Head>() == 52);
const _: () = assert!(size_of::<Loop>() == 12 && size_of::<Opening>() == 80);
const _: () = assert!(offset_of!(Opening, looped) == 60 && offset_of!(Opening, loop_context) == 72);
const _: () = assert!(size_of::<Body>() == 28 && size_of::<Playback>() == 24);
const _: () = assert!(size_of::<Part>() == 24 && size_of::<Turns>() == 16);
const _: () = assert!(size_of::<Comparison>() == 12);

mod raw {
    use super::*;

    // SAFETY: names, arguments and results are those of include/doilycairn.h.
    unsafe extern "C" {
        pub fn doilycairn_open(image: *const u8, image_len: usize) -> Opening;
        pub fn doilycairn_block_body(image: *const u8, image_len: usize, k: u32) -> Body;
        pub fn doilycairn_play(
            image: *const u8,
            image_len: usize,
            k: u32,
            out: *mut i16,
            out_len: usize,
        ) -> Playback;
        pub fn doilycairn_play_all(
            image: *const u8,
            image_len: usize,
            out: *mut i16,
            out_len: usize,
        ) -> Playback;
        pub fn doilycairn_play_from(
            image: *const u8,
            image_len: usize,
            first: u32,
            out: *mut i16,
            out_len: usize,
        ) -> Part;
        pub fn doilycairn_play_loop(
            image: *const u8,
            image_len: usize,
            times: u32,
            out: *mut i16,
            out_len: usize,
        ) -> Turns;
        pub fn doilycairn_same(
            first: *const u8,
            first_len: usize,
            second: *const u8,
            second_len: usize,
        ) -> Comparison;
        pub fn doilycairn_sounds_same(
            first: *const u8,
            first_len: usize,
            second: *const u8,
            second_len: usize,
        ) -> Comparison;
    }
}

pub fn open(image: &[u8]) -> Opening {
    // SAFETY: the slice is passed with its own length and only read.
    unsafe { raw::doilycairn_open(image.as_ptr(), image.len()) }
}

pub fn block_body(image: &[u8], k: u32) -> Body {
    // SAFETY: the slice is passed with its own length and only read.
    unsafe { raw::doilycairn_block_body(image.as_ptr(), image.len(), k) }
}

pub fn play(image: &[u8], k: u32, out: &mut [i16]) -> Playback {
    let (bytes, samples) = (image.as_ptr(), out.as_mut_ptr());
    // SAFETY: both slices are passed with their own lengths; only `out` is written.
    unsafe { raw::doilycairn_play(bytes, image.len(), k, samples, out.len()) }
}

pub fn play_all(image: &[u8], out: &mut [i16]) -> Playback {
    let (bytes, samples) = (image.as_ptr(), out.as_mut_ptr());
    // SAFETY: both slices are passed with their own lengths; only `out` is written.
    unsafe { raw::doilycairn_play_all(bytes, image.len(), samples, out.len()) }
}

pub fn play_from(image: &[u8], first: u32, out: &mut [i16]) -> Part {
    let (bytes, samples) = (image.as_ptr(), out.as_mut_ptr());
    // SAFETY: both slices are passed with their own lengths; only `out` is written.
    unsafe { raw::doilycairn_play_from(bytes, image.len(), first, samples, out.len()) }
}

pub fn play_loop(image: &[u8], times: u32, out: &mut [i16]) -> Turns {
    let (bytes, samples) = (image.as_ptr(), out.as_mut_ptr());
    // SAFETY: both slices are passed with their own lengths; only `out` is written.
    unsafe { raw::doilycairn_play_loop(bytes, image.len(), times, samples, out.len()) }
}

pub fn same(first: &[u8], second: &[u8]) -> Comparison {
    let (a, b) = (first.as_ptr(), second.as_ptr());
    // SAFETY: both slices are passed with their own lengths and only read, so they may overlap.
    unsafe { raw::doilycairn_same(a, first.len(), b, second.len()) }
}

pub fn sounds_same(first: &[u8], second: &[u8]) -> Comparison {
    let (a, b) = (first.as_ptr(), second.as_ptr());
    // SAFETY: both slices are passed with their own lengths and only read, so they may overlap.
    unsafe { raw::doilycairn_sounds_same(a, first.len(), b, second.len()) }
}
