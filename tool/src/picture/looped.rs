//! The loop: its samples are shaded, and its start and its end are marked.

use super::layout::Layout;
use super::marks::{CLICK, label};
use super::path::Path;
use super::seen::Seen;
use super::svg::Svg;
use super::words::number;
use crate::loops::Looped;
use std::io;

pub const LOOP: &str = "#2a7d2a";

/// How strongly its samples are shaded.
const SHADE: f64 = 0.12;

/// Behind the waveform.
pub fn shade(svg: &mut Svg, layout: &Layout, seen: &Seen) -> io::Result<()> {
    let Some(looped) = seen.looped else { return Ok(()) };
    let [from, to] = ends(layout, &looped);
    let mut area = Path::new();
    area.area(from, layout.wave.top, to - from, layout.wave.height);
    svg.fill("loop", &area, LOOP, SHADE)
}

/// Its start and its end: a mark above the waveform and a line through all panels for each. Where a click may be heard, the start's is that of a click.
pub fn marks(svg: &mut Svg, layout: &Layout, seen: &Seen) -> io::Result<()> {
    let Some(looped) = seen.looped else { return Ok(()) };
    let start = if looped.off().is_some() { ("click", CLICK) } else { ("loop", LOOP) };
    for (x, (name, colour)) in ends(layout, &looped).into_iter().zip([start, ("loop", LOOP)]) {
        let (mut tip, mut line) = (Path::new(), Path::new());
        tip.triangle(x, layout.loop_line() + 2.0, -8.0);
        line.vertical(x, layout.loop_line() + 2.0, layout.wave.top);
        layout.panels().for_each(|panel| line.vertical(x, panel.top, panel.bottom()));
        svg.stroke(name, &line, colour, 1.0)?;
        svg.fill(name, &tip, colour, 1.0)?;
    }
    let x = layout.x(looped.points.start.into());
    label(svg, x, layout.loop_line(), start.1, &words(&looped))
}

/// Where its first sample begins, and where its last one ends.
fn ends(layout: &Layout, looped: &Looped) -> [f64; 2] {
    [looped.points.start, looped.points.end].map(|sample| layout.x(sample.into()))
}

fn words(looped: &Looped) -> String {
    let (start, end) = (number(looped.points.start), number(looped.points.end));
    match looped.off() {
        None => format!("loop from {start} up to {end}"),
        Some(off) => {
            format!("loop from {start} up to {end}, click: history off by {}", number(off))
        }
    }
}
