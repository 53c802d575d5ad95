//! `.dsp` files: what they are known by, and the image that the library makes of one.

mod fields;
mod lenient;
mod refused;
#[cfg(test)]
mod tests;

use crate::console::Console;
use crate::failure::Failure;
use crate::input::ImageFile;
use crate::json::Json;
use crate::memory;
use doilycairn::{dsp_image_size, dsp_size, from_dsp_into};
use fields::{NIBBLES, TOTAL, nibbles};
pub use lenient::Mended;
use std::ffi::OsStr;
use std::path::Path;

/// Bytes of the header.
pub const HEADER: usize = 96;

/// What is said where an image is needed.
pub const NO_IMAGE: &str = "a .dsp file is no image: `import` makes one of it";

/// Whether a path ends in `.dsp`.
pub fn is_named(path: &OsStr) -> bool {
    Path::new(path).extension().is_some_and(|extension| extension.eq_ignore_ascii_case("dsp"))
}

/// Whether bytes begin as a .dsp file does. It has no mark: what tells is a count of samples, and after it the nibbles that they make.
pub fn begins(bytes: &[u8]) -> bool {
    if bytes.len() < 8 {
        return false;
    }
    let [total, count] = [TOTAL, NIBBLES].map(|field| field.number(bytes));
    total > 0 && count == nibbles(total)
}

/// A .dsp file that is an image now.
pub struct Imported {
    pub image: Vec<u8>,
    /// Bytes of the file up to its last body's end.
    pub size: usize,
    pub mended: Vec<Mended>,
}

/// Imports a file, and tells what was mended.
pub fn import(
    file: &mut ImageFile,
    block_size: u32,
    lenient: bool,
    console: &Console,
) -> Result<Imported, Failure> {
    let mended = if lenient { lenient::mend(&mut file.bytes) } else { vec![] };
    let size = dsp_image_size(&file.bytes, block_size)
        .map_err(|refusal| refused::failure(file, refusal, block_size, console))?;
    let mut image = memory::zeros(size)?;
    from_dsp_into(&file.bytes, block_size, &mut image).map_err(|refusal| file.refused(refusal))?;
    for mended in &mended {
        console.note(format!("{}: {mended}", file.name));
    }
    let size = dsp_size(TOTAL.number(&file.bytes) as u32).unwrap_or(0);
    Ok(Imported { image, size, mended })
}

/// What was mended; none of an image.
pub fn mended_json<'a>(mended: &[Mended]) -> Json<'a> {
    Json::list(mended.iter().map(Mended::json).collect::<Vec<_>>())
}
