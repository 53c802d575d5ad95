//! The data of an SVG path.

use std::fmt::Write;

/// A number of user units, with at most two decimals.
pub fn units(value: f64) -> String {
    let text = format!("{value:.2}");
    let short = text.trim_end_matches('0').trim_end_matches('.');
    if short == "-0" { "0".into() } else { short.into() }
}

/// The data of a path, as it grows.
#[derive(Clone, Debug)]
pub struct Path(String);

impl Path {
    pub const fn new() -> Self {
        Self(String::new())
    }

    pub fn data(&self) -> &str {
        &self.0
    }

    pub fn is_empty(&self) -> bool {
        self.0.is_empty()
    }

    /// A filled box.
    pub fn area(&mut self, x: f64, y: f64, width: f64, height: f64) {
        let (width, height) = (units(width), units(height));
        self.add(format_args!("M{} {}h{width}v{height}h-{width}z", units(x), units(y)));
    }

    pub fn vertical(&mut self, x: f64, from: f64, to: f64) {
        self.add(format_args!("M{} {}V{}", units(x), units(from), units(to)));
    }

    pub fn horizontal(&mut self, y: f64, from: f64, to: f64) {
        self.add(format_args!("M{} {}H{}", units(from), units(y), units(to)));
    }

    /// The next point of a line.
    pub fn point(&mut self, x: f64, y: f64) {
        let step = if self.0.is_empty() { 'M' } else { 'L' };
        self.add(format_args!("{step}{} {}", units(x), units(y)));
    }

    /// A triangle with this tip, its base `high` below it (above it, where negative).
    pub fn triangle(&mut self, x: f64, tip: f64, high: f64) {
        let (x, tip, high) = (units(x), units(tip), units(high));
        self.add(format_args!("M{x} {tip}l4 {high}h-8z"));
    }

    fn add(&mut self, step: std::fmt::Arguments) {
        self.0.write_fmt(step).expect("writing to a string");
    }
}
