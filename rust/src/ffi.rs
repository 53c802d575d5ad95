//! The calls of libdoilycairn.a, as include/doilycairn.h declares them, and a safe function for each. All unsafe code of the crate is here.
//!
//! What every call rests on: the archive has these functions with these layouts (the header asserts the same sizes and offsets, and
//! `layout` compares the two); a slice is passed as its pointer and its length, so the pointer is not null, aligned and has that many
//! elements; a `&mut` slice overlaps nothing else; the library keeps no pointer, reads and writes only what it was lent and ends.

use crate::{
    Block, Calculator, Coefficients, EncoderState, FrameContext, Head, History, Loop, LoopState,
    Start,
};

#[cfg(not(target_arch = "x86_64"))]
compile_error!("libdoilycairn.a is built for x86-64");

#[cfg(test)]
mod entries;
#[cfg(test)]
mod layout;
#[cfg(test)]
mod refused;

#[repr(C)]
#[derive(Debug)]
pub(crate) struct Processed {
    pub code: u32,
    pub calculator: Calculator,
}

#[repr(C)]
#[derive(Debug)]
pub(crate) struct Finished {
    pub code: u32,
    pub coefficients: Coefficients,
    pub calculator: Calculator,
}

#[repr(C)]
#[derive(Debug)]
pub(crate) struct Frame {
    pub code: u32,
    pub bytes: [u8; 8],
    pub passes: u32,
    pub history: History,
}

#[repr(C)]
#[derive(Debug)]
pub(crate) struct Encoding {
    pub code: u32,
    pub encoder: EncoderState,
}

#[repr(C)]
#[derive(Debug)]
pub(crate) struct Opening {
    pub code: u32,
    pub entry: u32,
    pub head: Head,
    pub looped: LoopState,
    pub loop_context: FrameContext,
}

#[repr(C)]
#[derive(Debug)]
pub(crate) struct Body {
    pub code: u32,
    pub entry: u32,
    pub offset: u32,
    pub bytes: u32,
    pub nibbles: u32,
    pub context: FrameContext,
}

#[repr(C)]
#[derive(Debug)]
pub(crate) struct Playback {
    pub code: u32,
    pub entry: u32,
    pub samples: u64,
    pub context: FrameContext,
}

#[repr(C)]
#[derive(Debug)]
pub(crate) struct Part {
    pub code: u32,
    pub entry: u32,
    pub samples: u64,
    pub blocks: u32,
}

#[repr(C)]
#[derive(Debug)]
pub(crate) struct Turns {
    pub code: u32,
    pub entry: u32,
    pub samples: u64,
}

#[repr(C)]
#[derive(Debug)]
pub(crate) struct Comparison {
    pub code: u32,
    pub entry: u32,
    pub same: bool,
}

#[repr(C)]
#[derive(Debug)]
pub(crate) struct Written {
    pub code: u32,
    pub entry: u32,
    pub bytes: u64,
}

#[repr(C)]
#[derive(Debug)]
pub(crate) struct Joining {
    pub code: u32,
    pub nibbles: u64,
}

/// The declarations. Those marked safe take numbers, structs by value and references alone.
#[allow(unsafe_code)]
mod raw {
    use super::*;

    // SAFETY: names, arguments and results are those of include/doilycairn.h.
    unsafe extern "C" {
        pub safe fn doilycairn_store_size(samples: u32) -> u64;
        pub safe fn doilycairn_image_size(total: u32, block_size: u32) -> u64;
        pub safe fn doilycairn_loop_image_size(total: u32, block_size: u32) -> u64;
        pub safe fn doilycairn_dsp_size(total: u32) -> u64;
        pub safe fn doilycairn_address_to_sample(address: u32) -> u64;
        pub safe fn doilycairn_sample_to_address(sample: u32) -> u64;
        pub safe fn doilycairn_new() -> Calculator;
        pub safe fn doilycairn_encode_frame(
            history: History,
            samples: &[i16; 14],
            coefficients: &Coefficients,
        ) -> Frame;
        pub fn doilycairn_process(
            calculator: Calculator,
            samples: *const i16,
            samples_len: usize,
            records: *mut f64,
            records_len: usize,
        ) -> Processed;
        pub fn doilycairn_finish(
            calculator: Calculator,
            records: *mut f64,
            records_len: usize,
        ) -> Finished;
        pub fn doilycairn_start(
            total: u32,
            rate: u32,
            block_size: u32,
            gain: u16,
            coefficients: &Coefficients,
            history: History,
            image: *mut u8,
            image_len: usize,
        ) -> Encoding;
        pub fn doilycairn_start_loop(
            total: u32,
            rate: u32,
            block_size: u32,
            gain: u16,
            coefficients: &Coefficients,
            history: History,
            loop_start: u32,
            loop_end: u32,
            image: *mut u8,
            image_len: usize,
        ) -> Encoding;
        pub fn doilycairn_feed(
            encoder: EncoderState,
            piece: *const i16,
            piece_len: usize,
            image: *mut u8,
            image_len: usize,
        ) -> Encoding;
        pub fn doilycairn_close(
            encoder: EncoderState,
            image: *mut u8,
            image_len: usize,
        ) -> Encoding;
        pub fn doilycairn_open(image: *const u8, image_len: usize) -> Opening;
        pub fn doilycairn_block_body(image: *const u8, image_len: usize, k: u32) -> Body;
        pub fn doilycairn_play(
            image: *const u8,
            image_len: usize,
            k: u32,
            out: *mut i16,
            out_len: usize,
        ) -> Playback;
        pub fn doilycairn_play_all(
            image: *const u8,
            image_len: usize,
            out: *mut i16,
            out_len: usize,
        ) -> Playback;
        pub fn doilycairn_play_from(
            image: *const u8,
            image_len: usize,
            first: u32,
            out: *mut i16,
            out_len: usize,
        ) -> Part;
        pub fn doilycairn_play_loop(
            image: *const u8,
            image_len: usize,
            times: u32,
            out: *mut i16,
            out_len: usize,
        ) -> Turns;
        pub fn doilycairn_same(
            first: *const u8,
            first_len: usize,
            second: *const u8,
            second_len: usize,
        ) -> Comparison;
        pub fn doilycairn_sounds_same(
            first: *const u8,
            first_len: usize,
            second: *const u8,
            second_len: usize,
        ) -> Comparison;
        pub fn doilycairn_export_dsp(
            image: *const u8,
            image_len: usize,
            out: *mut u8,
            out_len: usize,
        ) -> Written;
        pub fn doilycairn_import_dsp(
            file: *const u8,
            file_len: usize,
            block_size: u32,
            image: *mut u8,
            image_len: usize,
        ) -> Written;
        pub fn doilycairn_dsp_image_size(
            file: *const u8,
            file_len: usize,
            block_size: u32,
        ) -> Written;
        pub fn doilycairn_play_bytes(
            bytes: *const u8,
            bytes_len: usize,
            nibbles: u32,
            coefficients: &Coefficients,
            context: FrameContext,
            out: *mut i16,
            out_len: usize,
        ) -> Playback;
        pub fn doilycairn_join(
            first: *const u8,
            first_len: usize,
            first_nibbles: u32,
            first_coefficients: &Coefficients,
            second: *const u8,
            second_len: usize,
            second_nibbles: u32,
            second_coefficients: &Coefficients,
            out: *mut u8,
            out_len: usize,
        ) -> Joining;
    }
}

pub(crate) use raw::{
    doilycairn_address_to_sample as address_to_sample, doilycairn_dsp_size as dsp_size,
    doilycairn_encode_frame as encode_frame, doilycairn_image_size as image_size,
    doilycairn_loop_image_size as loop_image_size, doilycairn_new as new,
    doilycairn_sample_to_address as sample_to_address, doilycairn_store_size as store_size,
};

#[allow(unsafe_code)]
pub(crate) fn process(calculator: Calculator, samples: &[i16], records: &mut [f64]) -> Processed {
    let (piece, store) = (samples.as_ptr(), records.as_mut_ptr());
    // SAFETY: both slices are passed with their own lengths; only `records` is written.
    unsafe { raw::doilycairn_process(calculator, piece, samples.len(), store, records.len()) }
}

#[allow(unsafe_code)]
pub(crate) fn finish(calculator: Calculator, records: &mut [f64]) -> Finished {
    // SAFETY: the slice is passed with its own length.
    unsafe { raw::doilycairn_finish(calculator, records.as_mut_ptr(), records.len()) }
}

#[allow(unsafe_code)]
pub(crate) fn start(start: &Start, image: &mut [u8]) -> Encoding {
    if let Some(looped) = start.looped {
        return start_loop(start, looped, image);
    }
    let Start { total, rate, block_size, gain, ref coefficients, history, .. } = *start;
    let (buffer, len) = (image.as_mut_ptr(), image.len());
    // SAFETY: `buffer` and `len` are one slice; the coefficients lie outside it.
    unsafe {
        raw::doilycairn_start(total, rate, block_size, gain, coefficients, history, buffer, len)
    }
}

/// Starts a clip with this loop.
#[allow(unsafe_code)]
fn start_loop(start: &Start, looped: Loop, image: &mut [u8]) -> Encoding {
    // SAFETY: the slice is passed with its own length; the coefficients lie outside it.
    unsafe {
        raw::doilycairn_start_loop(
            start.total,
            start.rate,
            start.block_size,
            start.gain,
            &start.coefficients,
            start.history,
            looped.start,
            looped.end,
            image.as_mut_ptr(),
            image.len(),
        )
    }
}

#[allow(unsafe_code)]
pub(crate) fn feed(encoder: EncoderState, piece: &[i16], image: &mut [u8]) -> Encoding {
    let (samples, buffer) = (piece.as_ptr(), image.as_mut_ptr());
    // SAFETY: both slices are passed with their own lengths; only `image` is written.
    unsafe { raw::doilycairn_feed(encoder, samples, piece.len(), buffer, image.len()) }
}

#[allow(unsafe_code)]
pub(crate) fn close(encoder: EncoderState, image: &mut [u8]) -> Encoding {
    // SAFETY: the slice is passed with its own length.
    unsafe { raw::doilycairn_close(encoder, image.as_mut_ptr(), image.len()) }
}

#[allow(unsafe_code)]
pub(crate) fn open(image: &[u8]) -> Opening {
    // SAFETY: the slice is passed with its own length and only read.
    unsafe { raw::doilycairn_open(image.as_ptr(), image.len()) }
}

#[allow(unsafe_code)]
pub(crate) fn block_body(image: &[u8], k: u32) -> Body {
    // SAFETY: the slice is passed with its own length and only read.
    unsafe { raw::doilycairn_block_body(image.as_ptr(), image.len(), k) }
}

#[allow(unsafe_code)]
pub(crate) fn play(image: &[u8], k: u32, out: &mut [i16]) -> Playback {
    let (bytes, samples) = (image.as_ptr(), out.as_mut_ptr());
    // SAFETY: both slices are passed with their own lengths; only `out` is written.
    unsafe { raw::doilycairn_play(bytes, image.len(), k, samples, out.len()) }
}

#[allow(unsafe_code)]
pub(crate) fn play_all(image: &[u8], out: &mut [i16]) -> Playback {
    let (bytes, samples) = (image.as_ptr(), out.as_mut_ptr());
    // SAFETY: both slices are passed with their own lengths; only `out` is written.
    unsafe { raw::doilycairn_play_all(bytes, image.len(), samples, out.len()) }
}

#[allow(unsafe_code)]
pub(crate) fn play_from(image: &[u8], first: u32, out: &mut [i16]) -> Part {
    let (bytes, samples) = (image.as_ptr(), out.as_mut_ptr());
    // SAFETY: both slices are passed with their own lengths; only `out` is written.
    unsafe { raw::doilycairn_play_from(bytes, image.len(), first, samples, out.len()) }
}

#[allow(unsafe_code)]
pub(crate) fn play_loop(image: &[u8], times: u32, out: &mut [i16]) -> Turns {
    let (bytes, samples) = (image.as_ptr(), out.as_mut_ptr());
    // SAFETY: both slices are passed with their own lengths; only `out` is written.
    unsafe { raw::doilycairn_play_loop(bytes, image.len(), times, samples, out.len()) }
}

#[allow(unsafe_code)]
pub(crate) fn same(first: &[u8], second: &[u8]) -> Comparison {
    let (a, b) = (first.as_ptr(), second.as_ptr());
    // SAFETY: both slices are passed with their own lengths and only read, so they may overlap.
    unsafe { raw::doilycairn_same(a, first.len(), b, second.len()) }
}

#[allow(unsafe_code)]
pub(crate) fn sounds_same(first: &[u8], second: &[u8]) -> Comparison {
    let (a, b) = (first.as_ptr(), second.as_ptr());
    // SAFETY: both slices are passed with their own lengths and only read, so they may overlap.
    unsafe { raw::doilycairn_sounds_same(a, first.len(), b, second.len()) }
}

#[allow(unsafe_code)]
pub(crate) fn export_dsp(image: &[u8], out: &mut [u8]) -> Written {
    let (bytes, file) = (image.as_ptr(), out.as_mut_ptr());
    // SAFETY: both slices are passed with their own lengths; only `out` is written.
    unsafe { raw::doilycairn_export_dsp(bytes, image.len(), file, out.len()) }
}

#[allow(unsafe_code)]
pub(crate) fn import_dsp(file: &[u8], block_size: u32, image: &mut [u8]) -> Written {
    let (bytes, buffer) = (file.as_ptr(), image.as_mut_ptr());
    // SAFETY: both slices are passed with their own lengths; only `image` is written.
    unsafe { raw::doilycairn_import_dsp(bytes, file.len(), block_size, buffer, image.len()) }
}

#[allow(unsafe_code)]
pub(crate) fn dsp_image_size(file: &[u8], block_size: u32) -> Written {
    // SAFETY: the slice is passed with its own length and only read.
    unsafe { raw::doilycairn_dsp_image_size(file.as_ptr(), file.len(), block_size) }
}

#[allow(unsafe_code)]
pub(crate) fn play_bytes(
    bytes: &[u8],
    nibbles: u32,
    coefficients: &Coefficients,
    context: FrameContext,
    out: &mut [i16],
) -> Playback {
    let (block, len) = (bytes.as_ptr(), bytes.len());
    let (samples, room) = (out.as_mut_ptr(), out.len());
    // SAFETY: both slices are passed with their own lengths; only `out` is written.
    unsafe { raw::doilycairn_play_bytes(block, len, nibbles, coefficients, context, samples, room) }
}

#[allow(unsafe_code)]
pub(crate) fn join(first: &Block, second: &Block, out: &mut [u8]) -> Joining {
    // SAFETY: the three slices are passed with their own lengths; only `out` is written, the other two may overlap.
    unsafe {
        raw::doilycairn_join(
            first.bytes.as_ptr(),
            first.bytes.len(),
            first.nibbles,
            &first.coefficients,
            second.bytes.as_ptr(),
            second.bytes.len(),
            second.nibbles,
            &second.coefficients,
            out.as_mut_ptr(),
            out.len(),
        )
    }
}
