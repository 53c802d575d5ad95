//! The panels of frames: exponents and predictors.

use super::layout::{LEFT, Layout};
use super::panels::grid;
use super::path::Path;
use super::seen::{Cell, Seen};
use super::svg::{Anchor, Svg};
use std::io;

pub const EXPONENT: &str = "#00695c";

/// Below the smallest exponent of a cell.
pub const GROUND: &str = "#dfe5e2";

/// A colour for each predictor, told apart by most eyes.
pub const PREDICTORS: [&str; 8] =
    ["#1c1c1c", "#e69f00", "#56b4e9", "#009e73", "#c9b800", "#0072b2", "#d55e00", "#cc79a7"];

/// Where cells `from` to `to` stand: their left edge and their width.
fn span(layout: &Layout, seen: &Seen, from: usize, to: usize) -> (f64, f64) {
    let x = layout.x(seen.cell_start(from).into());
    (x, layout.x(seen.cell_start(to).into()) - x)
}

/// How strongly a row is drawn that `some` of a cell's `all` frames are in: place 0, not at all, to 5, most of them.
fn strength(some: u32, all: u32) -> usize {
    let share = 100 * u64::from(some) / u64::from(all);
    if some == 0 { 0 } else { 1 + [5, 15, 30, 60].iter().filter(|more| share > **more).count() }
}

/// A row of cells, each as strong as its share of the frames that `some` counts. Neighbours of one strength are drawn as one.
fn row(
    svg: &mut Svg,
    layout: &Layout,
    seen: &Seen,
    (name, colour): (&str, &str),
    (y, height): (f64, f64),
    some: impl Fn(&Cell) -> u32,
) -> io::Result<()> {
    let strengths = seen.cells.iter().map(|c| strength(some(c), c.predictors.iter().sum()));
    let strengths: Vec<usize> = strengths.collect();
    let mut paths = [const { Path::new() }; 6];
    let mut from = 0;
    for run in strengths.chunk_by(|a, b| a == b) {
        let (x, width) = span(layout, seen, from, from + run.len());
        paths[run[0]].area(x, y, width, height);
        from += run.len();
    }
    for (path, opacity) in paths[1..].iter().zip([0.15, 0.3, 0.5, 0.75, 1.0]) {
        svg.fill(name, path, colour, opacity)?;
    }
    Ok(())
}

pub fn exponents(svg: &mut Svg, layout: &Layout, seen: &Seen) -> io::Result<()> {
    let panel = layout.exponent;
    let high = panel.height / seen.exponents() as f64;
    svg.upwards(12.0, panel.middle(), "exponent")?;
    for exponent in (0..seen.exponents()).step_by(4) {
        let y = panel.bottom() - (exponent as f64 + 0.5) * high;
        grid(svg, y, &exponent.to_string())?;
    }
    below(svg, layout, seen, high)?;
    for exponent in 0..seen.exponents() {
        let y = panel.bottom() - (exponent + 1) as f64 * high;
        let style = ("exponent", EXPONENT);
        row(svg, layout, seen, style, (y, high), |cell| cell.exponents[exponent])?;
    }
    Ok(())
}

/// A light ground below the smallest exponent of each cell.
fn below(svg: &mut Svg, layout: &Layout, seen: &Seen, high: f64) -> io::Result<()> {
    let least = |cell: &Cell| cell.exponents.iter().position(|some| *some > 0).unwrap_or(0);
    let (mut path, mut from) = (Path::new(), 0);
    for run in seen.cells.chunk_by(|a, b| least(a) == least(b)) {
        let (x, width) = span(layout, seen, from, from + run.len());
        let height = least(&run[0]) as f64 * high;
        if height > 0.0 {
            path.area(x, layout.exponent.bottom() - height, width, height);
        }
        from += run.len();
    }
    svg.fill("below", &path, GROUND, 1.0)
}

pub fn predictors(svg: &mut Svg, layout: &Layout, seen: &Seen) -> io::Result<()> {
    let panel = layout.predictor;
    let high = panel.height / 8.0;
    svg.upwards(12.0, panel.middle(), "predictor")?;
    for (k, colour) in PREDICTORS.into_iter().enumerate() {
        let y = panel.bottom() - (k + 1) as f64 * high;
        svg.text(LEFT - 6.0, y + high / 2.0 + 4.0, Anchor::End, &k.to_string())?;
        row(svg, layout, seen, ("predictor", colour), (y, high), |cell| cell.predictors[k])?;
    }
    Ok(())
}
