//! Export and import of .dsp files through the crate, beside those through C.

use crate::c_calls::shown;
use crate::convert::refused;
use crate::tally::Tally;
use doilycairn::{Image, Refusal, from_dsp, from_dsp_into};
use dsp_list::pattern;
use image_list::reader::Refused;

/// What is written, or why not.
type Made = Result<Vec<u8>, Refused>;

/// What a call leaves in a buffer of some length, and its answer.
fn written(
    room: usize,
    call: impl FnOnce(&mut [u8]) -> Result<usize, Refusal>,
) -> (Result<usize, Refused>, Vec<u8>) {
    let mut buffer = pattern(room);
    let count = call(&mut buffer).map_err(refused);
    (count, buffer)
}

/// What it should leave, and the answer.
fn right(made: &Made, buffer: &[u8]) -> (Result<usize, Refused>, Vec<u8>) {
    let count = made.as_ref().map(Vec::len).map_err(|refused| *refused);
    (count, buffer.to_vec())
}

/// Exports an image that opens with a room, and as a file of its own; `all` is the file with enough room.
pub fn compare_export(image: &[u8], made: &Made, all: &Made, buffer: &[u8], tally: &mut Tally) {
    let Ok(opened) = Image::open(image) else { return };
    let library = written(buffer.len(), |out| opened.to_dsp_into(out));
    let input = (shown(image), buffer.len());
    tally.compare("to_dsp_into", &input, library, right(made, buffer));
    tally.compare("to_dsp", &shown(image), opened.to_dsp().map_err(refused), all.clone());
}

/// Imports a file with a room, and as an image of its own; `all` is the image with enough room.
pub fn compare_import(
    file: &[u8],
    size: u32,
    made: &Made,
    all: &Made,
    buffer: &[u8],
    tally: &mut Tally,
) {
    let library = written(buffer.len(), |image| from_dsp_into(file, size, image));
    let input = (shown(file), size, buffer.len());
    tally.compare("from_dsp_into", &input, library, right(made, buffer));
    tally.compare("from_dsp", &input, from_dsp(file, size).map_err(refused), all.clone());
}

/// Asks how much room import needs.
pub fn compare_room(file: &[u8], size: u32, all: &Made, tally: &mut Tally) {
    let library = doilycairn::dsp_image_size(file, size).map_err(refused);
    let right = all.as_ref().map(Vec::len).map_err(|refused| *refused);
    tally.compare("doilycairn::dsp_image_size", &(shown(file), size), library, right);
}

/// Asks for the bytes of a clip's file.
pub fn compare_size(total: u32, right: Option<usize>, tally: &mut Tally) {
    let library = doilycairn::dsp_size(total);
    tally.compare("doilycairn::dsp_size", &total, library.ok_or(0), right.ok_or(0));
}
