//! Export and import of .dsp files as a C program calls them, every field of the answer and the whole buffer.

use crate::c_calls::shown;
use crate::crate_files;
use crate::tally::Tally;
use clip_list::body_size;
use dsp_list::{Call, export, import, pattern};
use image_list::reader::Refused;

/// `doilycairn_written`.
#[repr(C)]
#[derive(Debug, Clone, Copy, Default, PartialEq)]
pub struct Written {
    pub code: u32,
    pub entry: u32,
    pub bytes: u64,
}

const _: () = assert!(size_of::<Written>() == 16);

mod raw {
    use super::*;

    // SAFETY: names, arguments and results are those of include/doilycairn.h.
    unsafe extern "C" {
        pub fn doilycairn_export_dsp(
            image: *const u8,
            image_len: usize,
            out: *mut u8,
            out_len: usize,
        ) -> Written;
        pub fn doilycairn_import_dsp(
            file: *const u8,
            file_len: usize,
            block_size: u32,
            image: *mut u8,
            image_len: usize,
        ) -> Written;
        pub fn doilycairn_dsp_image_size(
            file: *const u8,
            file_len: usize,
            block_size: u32,
        ) -> Written;
        pub fn doilycairn_dsp_size(total: u32) -> u64;
    }
}

pub fn export_dsp(image: &[u8], out: &mut [u8]) -> Written {
    let (bytes, file) = (image.as_ptr(), out.as_mut_ptr());
    // SAFETY: both slices are passed with their own lengths; only `out` is written.
    unsafe { raw::doilycairn_export_dsp(bytes, image.len(), file, out.len()) }
}

pub fn import_dsp(file: &[u8], size: u32, image: &mut [u8]) -> Written {
    let (bytes, out) = (file.as_ptr(), image.as_mut_ptr());
    // SAFETY: both slices are passed with their own lengths; only `image` is written.
    unsafe { raw::doilycairn_import_dsp(bytes, file.len(), size, out, image.len()) }
}

fn dsp_image_size(file: &[u8], size: u32) -> Written {
    // SAFETY: the slice is passed with its own length and only read.
    unsafe { raw::doilycairn_dsp_image_size(file.as_ptr(), file.len(), size) }
}

fn dsp_size(total: u32) -> u64 {
    // SAFETY: a number is passed.
    unsafe { raw::doilycairn_dsp_size(total) }
}

/// The answer that a call should give.
fn right(made: &Result<Vec<u8>, Refused>) -> Written {
    match made {
        Ok(bytes) => Written { bytes: bytes.len() as u64, ..Written::default() },
        Err(Refused { code, block }) => {
            Written { code: (*code).into(), entry: *block, ..Written::default() }
        }
    }
}

/// The buffer after it.
fn right_buffer(made: &Result<Vec<u8>, Refused>, room: usize) -> Vec<u8> {
    let mut buffer = pattern(room);
    if let Ok(bytes) = made {
        buffer[..bytes.len()].copy_from_slice(bytes);
    }
    buffer
}

/// The same with a room, which is asked for last.
fn with_room(all: &Result<Vec<u8>, Refused>, room: usize, code: u8) -> Result<Vec<u8>, Refused> {
    match all {
        Ok(bytes) if room < bytes.len() => Err(Refused::by(code)),
        all => all.clone(),
    }
}

/// What the library wrote, where it accepts.
fn accepted(written: Written, buffer: &[u8]) -> Option<Vec<u8>> {
    (written.code == 0).then(|| buffer[..written.bytes as usize].to_vec())
}

/// Exports with a room; gives the file.
pub fn compare_export(image: &[u8], room: usize, tally: &mut Tally) -> Option<Vec<u8>> {
    let mut buffer = pattern(room);
    let library = export_dsp(image, &mut buffer);
    let file = accepted(library, &buffer);
    let all = export(image);
    let made = with_room(&all, room, 14);
    let (input, right_buffer) = ((shown(image), room), right_buffer(&made, room));
    crate_files::compare_export(image, &made, &all, &right_buffer, tally);
    tally.compare("export_dsp", &input, library, right(&made));
    tally.compare("export_dsp's output", &input, buffer, right_buffer);
    file
}

/// Imports at a block size with a room; gives the image.
pub fn compare_import(file: &[u8], size: u32, room: usize, tally: &mut Tally) -> Option<Vec<u8>> {
    let mut buffer = pattern(room);
    let library = import_dsp(file, size, &mut buffer);
    let image = accepted(library, &buffer);
    let all = import(file, size);
    let made = with_room(&all, room, 8);
    let (input, right_buffer) = ((shown(file), size, room), right_buffer(&made, room));
    crate_files::compare_import(file, size, &made, &all, &right_buffer, tally);
    tally.compare("import_dsp", &input, library, right(&made));
    tally.compare("import_dsp's image", &input, buffer, right_buffer);
    image
}

/// Asks how much room import needs.
pub fn compare_room(file: &[u8], size: u32, tally: &mut Tally) {
    let (library, all) = (dsp_image_size(file, size), import(file, size));
    tally.compare("dsp_image_size", &(shown(file), size), library, right(&all));
    crate_files::compare_room(file, size, &all, tally);
}

/// Asks for the bytes of a clip's file.
pub fn compare_size(total: u32, tally: &mut Tally) {
    let is_a_count = (1..=14_680_064).contains(&total);
    let right = is_a_count.then(|| 96 + body_size(total));
    tally.compare("dsp_size", &total, dsp_size(total), right.unwrap_or(0));
    crate_files::compare_size(total, right.map(|bytes| bytes as usize), tally);
}

/// A call of the fixed list; gives what is written.
pub fn compare_call(call: Call, source: &[u8], tally: &mut Tally) -> Option<Vec<u8>> {
    match call {
        Call::Export { room } => compare_export(source, room, tally),
        Call::Import { size, room } => compare_import(source, size, room, tally),
        Call::Room { size } => {
            compare_room(source, size, tally);
            None
        }
    }
}
