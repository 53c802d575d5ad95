//! A picture of an image, as SVG: the waveform, the exponent and the predictor of each frame, the edges of the blocks and the loop, so
//! that a click is seen where it would be heard.
//!
//! An image of any length takes memory for one block and for what each column of the picture shows.

mod frames;
mod jumps;
mod layout;
mod legend;
mod looped;
mod marks;
mod panels;
mod path;
mod samples;
mod seen;
mod svg;
mod time;
mod walk;
mod words;

#[cfg(test)]
mod tests;
#[cfg(test)]
mod xml;

use doilycairn::Image;
use layout::Layout;
use std::io::{self, Write};
use svg::Svg;

/// Draws the image, under the name of its file; with a reference, also how far what is played is from it, up to the end of the shorter one.
pub fn draw(
    name: &str,
    image: &Image,
    reference: Option<&[i16]>,
    out: &mut dyn Write,
) -> io::Result<()> {
    let seen = walk::walk(image, reference).map_err(io::Error::other)?;
    let lines = words::lines(&seen);
    let layout = Layout::new(&seen, lines.len());
    let title = format!("{name}: {}", words::summary(&seen));
    let mut svg = Svg::begin(out, &title, legend::bottom(&layout, &seen))?;
    words::heading(&mut svg, name, &lines)?;
    panels::all(&mut svg, &layout, &seen)?;
    marks::all(&mut svg, &layout, &seen)?;
    legend::draw(&mut svg, &layout, &seen)?;
    svg.end()
}
