//! The elements of the picture, written one after the other.

use super::layout::WIDTH;
use super::path::{Path, units};
use std::io::{self, Write};

/// Which side of its place a text stands on.
#[derive(Clone, Copy)]
pub enum Anchor {
    Start,
    Middle,
    End,
}

impl Anchor {
    fn name(self) -> &'static str {
        match self {
            Anchor::Start => "start",
            Anchor::Middle => "middle",
            Anchor::End => "end",
        }
    }
}

pub struct Svg<'a> {
    out: &'a mut dyn Write,
}

/// A text with the characters that XML gives a meaning written in another way.
fn escaped(text: &str) -> String {
    text.replace('&', "&amp;").replace('<', "&lt;").replace('>', "&gt;")
}

impl<'a> Svg<'a> {
    /// Begins a picture of fixed size with a background of its own, so that it reads the same on light and dark pages.
    pub fn begin(out: &'a mut dyn Write, title: &str, height: f64) -> io::Result<Self> {
        let high = units(height.ceil());
        writeln!(out, r#"<?xml version="1.0" encoding="UTF-8"?>"#)?;
        writeln!(
            out,
            r#"<svg xmlns="http://www.w3.org/2000/svg" version="1.1" width="{WIDTH}" height="{high}" viewBox="0 0 {WIDTH} {high}" font-family="sans-serif" font-size="11">"#
        )?;
        writeln!(out, "<title>{}</title>", escaped(title))?;
        writeln!(out, r##"<rect width="{WIDTH}" height="{high}" fill="#f7f6f2"/>"##)?;
        Ok(Self { out })
    }

    pub fn end(self) -> io::Result<()> {
        writeln!(self.out, "</svg>")?;
        self.out.flush()
    }

    /// A filled path; nothing where it is empty.
    pub fn fill(&mut self, name: &str, path: &Path, colour: &str, opacity: f64) -> io::Result<()> {
        if path.is_empty() {
            return Ok(());
        }
        let (data, opacity) = (path.data(), units(opacity));
        writeln!(
            self.out,
            r#"<path class="{name}" fill="{colour}" fill-opacity="{opacity}" d="{data}"/>"#
        )
    }

    /// A drawn path; nothing where it is empty.
    pub fn stroke(&mut self, name: &str, path: &Path, colour: &str, wide: f64) -> io::Result<()> {
        if path.is_empty() {
            return Ok(());
        }
        let (data, wide) = (path.data(), units(wide));
        writeln!(
            self.out,
            r#"<path class="{name}" fill="none" stroke="{colour}" stroke-width="{wide}" stroke-linejoin="round" d="{data}"/>"#
        )
    }

    pub fn text(&mut self, x: f64, y: f64, anchor: Anchor, text: &str) -> io::Result<()> {
        self.styled(x, y, anchor, text, r##"fill="#1c1c1c""##)
    }

    /// A text with attributes of its own.
    pub fn styled(
        &mut self,
        x: f64,
        y: f64,
        anchor: Anchor,
        text: &str,
        attributes: &str,
    ) -> io::Result<()> {
        let (x, y, anchor, text) = (units(x), units(y), anchor.name(), escaped(text));
        writeln!(
            self.out,
            r#"<text x="{x}" y="{y}" text-anchor="{anchor}" {attributes}>{text}</text>"#
        )
    }

    /// A text that runs upwards, with its middle at this place.
    pub fn upwards(&mut self, x: f64, y: f64, text: &str) -> io::Result<()> {
        let turn = format!(r##"fill="#1c1c1c" transform="rotate(-90 {} {})""##, units(x), units(y));
        self.styled(x, y, Anchor::Middle, text, &turn)
    }
}
