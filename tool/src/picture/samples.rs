//! The panels of samples: the waveform, and the distance from the reference.

use super::layout::{LEFT, Layout, Panel};
use super::panels::grid;
use super::path::Path;
use super::seen::{Column, Seen};
use super::svg::Svg;
use super::words::number;
use std::io;

pub const WAVE: &str = "#1f4e79";
pub const PEAKS: &str = "#8fb1d3";
pub const DISTANCE: &str = "#6a1b9a";

/// Samples that are drawn as dots on their line.
const DOTS: usize = 160;

pub fn wave(svg: &mut Svg, layout: &Layout, seen: &Seen) -> io::Result<()> {
    let panel = layout.wave;
    let limit = seen.loudest().next_power_of_two().max(16);
    let unit = (panel.height / 2.0 - 2.0) / f64::from(limit);
    let level = |level: f64| panel.middle() - level * unit;
    let y = |sample: i16| level(sample.into());
    svg.upwards(12.0, panel.middle(), "samples")?;
    for line in [i64::from(limit), 0, -i64::from(limit)] {
        grid(svg, level(line as f64), &number(line))?;
    }
    let mut path = Path::new();
    if seen.gathered() {
        for (g, column) in seen.columns.iter().enumerate() {
            let (from, to) = (y(column.high) - 0.75, y(column.low) + 0.75);
            path.area(LEFT + g as f64, from, 1.0, to - from);
        }
        let colour = if seen.has_rms() { PEAKS } else { WAVE };
        svg.fill("wave", &path, colour, 1.0)?;
        return rms(svg, seen, level);
    }
    for (i, column) in seen.columns.iter().enumerate() {
        path.point(layout.x(i as f64 + 0.5), y(column.high));
    }
    svg.stroke("wave", &path, WAVE, 1.25)?;
    dots(svg, layout, seen, y)
}

/// The root mean square of each column, within its peaks.
fn rms(svg: &mut Svg, seen: &Seen, y: impl Fn(f64) -> f64) -> io::Result<()> {
    let mut path = Path::new();
    for (g, column) in seen.columns.iter().enumerate().filter(|_| seen.has_rms()) {
        let size = column.rms();
        let (high, low) = (size.min(column.high.into()), (-size).max(column.low.into()));
        if high > low {
            path.area(LEFT + g as f64, y(high), 1.0, y(low) - y(high));
        }
    }
    svg.fill("rms", &path, WAVE, 1.0)
}

/// Each sample as a dot, where there are few.
fn dots(svg: &mut Svg, layout: &Layout, seen: &Seen, y: impl Fn(i16) -> f64) -> io::Result<()> {
    if seen.columns.len() > DOTS {
        return Ok(());
    }
    let mut dots = Path::new();
    for (i, column) in seen.columns.iter().enumerate() {
        dots.area(layout.x(i as f64 + 0.5) - 2.0, y(column.high) - 2.0, 4.0, 4.0);
    }
    svg.fill("dots", &dots, WAVE, 1.0)
}

/// The largest distance of each column over the largest bound, on a scale of logarithms.
pub fn distance(svg: &mut Svg, layout: &Layout, panel: Panel, seen: &Seen) -> io::Result<()> {
    let largest = |column: &Column| column.distance.max(column.bound);
    let most = seen.columns.iter().map(largest).max().unwrap_or(0).max(1);
    let unit = (panel.height - 4.0) / f64::from(most).ln_1p();
    let high = |size: u32| f64::from(size).ln_1p() * unit;
    svg.upwards(12.0, panel.middle(), "distance")?;
    let mut free = 0.0;
    for tick in [1, 10, 100, 1000, 10_000].into_iter().filter(|tick| *tick < most).chain([most]) {
        let above = high(tick) + 12.0;
        if tick == most || high(tick) >= free && above <= high(most) {
            grid(svg, panel.bottom() - high(tick), &number(tick))?;
            free = above;
        }
    }
    let (mut bounds, mut reached) = (Path::new(), Path::new());
    for (g, column) in seen.columns.iter().enumerate() {
        let [from, to] = [g, g + 1].map(|g| layout.x(seen.sample_of(g).into()));
        for (path, size) in [(&mut bounds, column.bound), (&mut reached, column.distance)] {
            if size > 0 {
                path.area(from, panel.bottom() - high(size), to - from, high(size));
            }
        }
    }
    svg.fill("bound", &bounds, DISTANCE, 0.2)?;
    svg.fill("distance", &reached, DISTANCE, 0.85)
}
