//! The panels, one below the other.

use super::layout::{LEFT, Layout, RIGHT};
use super::path::Path;
use super::seen::Seen;
use super::svg::{Anchor, Svg};
use super::{frames, looped, samples};
use std::io;

pub fn all(svg: &mut Svg, layout: &Layout, seen: &Seen) -> io::Result<()> {
    let mut panels = Path::new();
    for panel in layout.panels() {
        panels.area(LEFT, panel.top, RIGHT - LEFT, panel.height);
    }
    svg.fill("panel", &panels, "#ffffff", 1.0)?;
    looped::shade(svg, layout, seen)?;
    samples::wave(svg, layout, seen)?;
    if let Some(panel) = layout.distance {
        samples::distance(svg, layout, panel, seen)?;
    }
    frames::exponents(svg, layout, seen)?;
    frames::predictors(svg, layout, seen)
}

/// A line across a panel, and what it stands for.
pub fn grid(svg: &mut Svg, y: f64, label: &str) -> io::Result<()> {
    let mut line = Path::new();
    line.horizontal(y, LEFT, RIGHT);
    svg.stroke("grid", &line, "#c9c7c0", 0.75)?;
    svg.text(LEFT - 6.0, y + 4.0, Anchor::End, label)
}
