//! What is marked across the panels: edges of blocks, the loop, the largest jump, histories that are off, the axes below.

use super::layout::{LEFT, Layout, RIGHT};
use super::looped;
use super::path::Path;
use super::seen::{Seen, step};
use super::svg::{Anchor, Svg};
use super::time::{self, LABELS};
use super::words::number;
use std::io;

pub const EDGE: &str = "#8a8880";
pub const JUMP: &str = "#b35c00";
pub const CLICK: &str = "#c1121f";

pub fn all(svg: &mut Svg, layout: &Layout, seen: &Seen) -> io::Result<()> {
    edges(svg, layout, seen)?;
    looped::marks(svg, layout, seen)?;
    jump(svg, layout, seen)?;
    seams(svg, layout, seen)?;
    furthest(svg, layout, seen)?;
    let (blocks, samples) = (seen.head.blocks, seen.head.total);
    times(svg, layout, seen)?;
    axis(svg, layout, layout.axis(1), "sample", samples, 1)?;
    axis(svg, layout, layout.axis(2), "block", blocks, seen.block_samples())
}

fn edges(svg: &mut Svg, layout: &Layout, seen: &Seen) -> io::Result<()> {
    let mut lines = Path::new();
    for sample in seen.edges().0 {
        for panel in layout.panels() {
            lines.vertical(layout.x(sample.into()), panel.top, panel.bottom());
        }
    }
    svg.stroke("edge", &lines, EDGE, 0.5)
}

/// A label beside a mark, on the side that has more room.
pub fn label(svg: &mut Svg, x: f64, y: f64, colour: &str, text: &str) -> io::Result<()> {
    let left = x < (LEFT + RIGHT) / 2.0;
    let (x, anchor) = if left { (x + 8.0, Anchor::Start) } else { (x - 8.0, Anchor::End) };
    svg.styled(x, y, anchor, text, &format!(r#"fill="{colour}" font-weight="bold""#))
}

/// The largest jump that stands out: a mark above the waveform and a line through it.
fn jump(svg: &mut Svg, layout: &Layout, seen: &Seen) -> io::Result<()> {
    let Some(jump) = seen.odd else { return Ok(()) };
    let (x, top) = (layout.x(jump.at.into()), layout.wave.top);
    let (mut tip, mut line) = (Path::new(), Path::new());
    tip.triangle(x, top - 1.0, -8.0);
    line.vertical(x, top, layout.wave.bottom());
    svg.stroke("jump", &line, JUMP, 1.0)?;
    svg.fill("jump", &tip, JUMP, 1.0)?;
    let text = format!("jump {} at {}", number(jump.size), number(jump.at));
    label(svg, x, top - 3.0, JUMP, &text)
}

/// Histories that are off: a mark at the foot of the waveform for each column that has one, a line through it for the largest.
fn seams(svg: &mut Svg, layout: &Layout, seen: &Seen) -> io::Result<()> {
    let Some(largest) = seen.seams.largest else { return Ok(()) };
    let bottom = layout.wave.bottom();
    let (mut others, mut tip, mut line) = (Path::new(), Path::new(), Path::new());
    for (g, _) in seen.seams.columns.iter().enumerate().filter(|(_, off)| **off) {
        others.vertical(layout.x(seen.sample_of(g).into()), bottom - 8.0, bottom);
    }
    let x = layout.x(largest.at.into());
    tip.triangle(x, bottom + 1.0, 8.0);
    line.vertical(x, layout.wave.top, bottom);
    svg.stroke("click", &others, CLICK, 1.5)?;
    svg.stroke("click", &line, CLICK, 1.5)?;
    svg.fill("click", &tip, CLICK, 1.0)?;
    let text = format!("click: history off by {} at {}", number(largest.size), number(largest.at));
    label(svg, x, bottom + 12.0, CLICK, &text)
}

/// The largest distance from the reference.
fn furthest(svg: &mut Svg, layout: &Layout, seen: &Seen) -> io::Result<()> {
    let (Some(panel), Some(distance)) = (layout.distance, &seen.distance) else { return Ok(()) };
    let Some(largest) = distance.largest.filter(|largest| largest.size > 0) else { return Ok(()) };
    let x = layout.x(f64::from(largest.at) + 0.5);
    let mut tip = Path::new();
    tip.triangle(x, panel.bottom() + 1.0, 8.0);
    svg.fill("furthest", &tip, "#6a1b9a", 1.0)?;
    let text = format!("distance {} at {}", number(largest.size), number(largest.at));
    label(svg, x, panel.bottom() + 12.0, "#6a1b9a", &text)
}

/// Times along the bottom.
fn times(svg: &mut Svg, layout: &Layout, seen: &Seen) -> io::Result<()> {
    svg.text(LEFT - 14.0, layout.axis(0), Anchor::End, "time")?;
    let (total, rate) = (f64::from(seen.head.total), f64::from(seen.head.rate));
    let step = time::step(total / rate);
    for i in (0..=LABELS).map(f64::from).take_while(|i| i * step * rate < total) {
        let text = time::label(i * step, step);
        number_at(svg, layout.x(i * step * rate), layout.axis(0), &text)?;
    }
    Ok(())
}

/// Numbers nearer to an edge stand beside their place.
const LEFT_MOST: f64 = LEFT + 12.0;
const RIGHT_MOST: f64 = RIGHT - 24.0;

/// A number along the bottom.
fn number_at(svg: &mut Svg, x: f64, y: f64, text: &str) -> io::Result<()> {
    let anchor = match x {
        ..LEFT_MOST => Anchor::Start,
        RIGHT_MOST.. => Anchor::End,
        _ => Anchor::Middle,
    };
    svg.text(x, y, anchor, text)
}

/// Numbers along the bottom, each at the first sample of what it counts: `each` samples.
fn axis(
    svg: &mut Svg,
    layout: &Layout,
    y: f64,
    name: &str,
    count: u32,
    each: u32,
) -> io::Result<()> {
    svg.text(LEFT - 14.0, y, Anchor::End, name)?;
    for i in (0..count).step_by(step(count, LABELS) as usize) {
        number_at(svg, layout.x((i * each).into()), y, &number(i))?;
    }
    Ok(())
}
