//! What each colour stands for.

use super::frames::{EXPONENT, GROUND, PREDICTORS};
use super::layout::{LEFT, Layout, RIGHT};
use super::looped::LOOP;
use super::marks::{CLICK, EDGE, JUMP};
use super::path::Path;
use super::samples::{DISTANCE, PEAKS, WAVE};
use super::seen::Seen;
use super::svg::{Anchor, Svg};
use super::words::{number, percent};
use std::io;

/// From line to line.
const LINE: f64 = 17.0;

/// About the width of a letter.
const LETTER: f64 = 6.2;

/// A colour, how strong it is drawn, and its words.
struct Item {
    colour: &'static str,
    opacity: f64,
    text: String,
}

fn item(colour: &'static str, opacity: f64, text: impl Into<String>) -> Item {
    Item { colour, opacity, text: text.into() }
}

/// The colours in the panels, and then those of the predictors.
fn items(seen: &Seen) -> [Vec<Item>; 2] {
    let mut items = vec![];
    if seen.has_rms() {
        items.push(item(PEAKS, 1.0, "samples, lowest to highest"));
        items.push(item(WAVE, 1.0, "root mean square"));
    } else {
        items.push(item(WAVE, 1.0, "samples"));
    }
    if seen.distance.is_some() {
        items.push(item(DISTANCE, 0.85, "distance from the recording"));
        items.push(item(DISTANCE, 0.2, "its bound"));
    }
    items.push(item(EXPONENT, 1.0, "exponent of a frame"));
    items.push(item(GROUND, 1.0, "below the smallest exponent"));
    items.extend((seen.head.blocks > 1).then(|| item(EDGE, 1.0, "edge of a block")));
    items.extend(seen.looped.map(|_| item(LOOP, 1.0, "loop")));
    items.extend(seen.odd.map(|_| item(JUMP, 1.0, "jump that stands out")));
    items.extend(seen.clicks().then(|| item(CLICK, 1.0, "click")));
    [items, predictors(seen)]
}

/// Each predictor's colour, coefficients, and the share of frames that have it.
fn predictors(seen: &Seen) -> Vec<Item> {
    let pairs = seen.head.coefficients.pairs().into_iter().enumerate();
    let words = pairs.map(|(k, (c0, c1))| {
        let share = percent(seen.predicted_by(k), seen.frames);
        item(
            PREDICTORS[k],
            1.0,
            format!("predictor {k} ({} and {}): {share}", number(c0), number(c1)),
        )
    });
    words.collect()
}

/// Where each item stands: its place in a line, and the line.
fn places(items: &[Vec<Item>; 2]) -> Vec<(f64, usize, &Item)> {
    let (mut placed, mut line) = (vec![], 0);
    for (i, group) in items.iter().enumerate() {
        let mut x = LEFT;
        line += usize::from(i > 0);
        // The predictors in columns, four in a line.
        let column = if i == 0 { 1.0 } else { (RIGHT - LEFT) / 4.0 };
        for item in group {
            let wide = (14.0 + LETTER * item.text.chars().count() as f64 + 16.0) / column;
            let wide = wide.ceil() * column;
            if x > LEFT && x + wide > RIGHT + 16.0 {
                (x, line) = (LEFT, line + 1);
            }
            placed.push((x, line, item));
            x += wide;
        }
    }
    placed
}

/// The bottom of the legend.
pub fn bottom(layout: &Layout, seen: &Seen) -> f64 {
    let lines = places(&items(seen)).last().map_or(0, |(_, line, _)| *line);
    layout.legend() + LINE * lines as f64 + 14.0
}

pub fn draw(svg: &mut Svg, layout: &Layout, seen: &Seen) -> io::Result<()> {
    for (x, line, item) in places(&items(seen)) {
        let y = layout.legend() + LINE * line as f64;
        let mut swatch = Path::new();
        swatch.area(x, y - 9.0, 10.0, 10.0);
        svg.fill("swatch", &swatch, item.colour, item.opacity)?;
        svg.text(x + 14.0, y, Anchor::Start, &item.text)?;
    }
    Ok(())
}
