//! Colours, on a terminal alone.

use std::ffi::OsStr;
use std::io::{self, IsTerminal};

/// Where words go.
#[derive(Clone, Copy, Debug, PartialEq, Eq)]
pub enum Stream {
    Out,
    Err,
}

impl Stream {
    pub fn is_terminal(self) -> bool {
        match self {
            Stream::Out => io::stdout().is_terminal(),
            Stream::Err => io::stderr().is_terminal(),
        }
    }
}

#[derive(Clone, Copy)]
pub enum Colour {
    Good = 32,
    Warning = 33,
    Bad = 31,
}

/// Whether words are painted.
#[derive(Clone, Copy)]
pub struct Paint(bool);

impl Paint {
    /// For a stream: on a terminal that knows colours, unless NO_COLOR is set and not empty.
    pub fn of(stream: Stream) -> Self {
        let variable = |name| std::env::var_os(name);
        Self(stream.is_terminal() && wanted(variable("NO_COLOR").as_deref()) && knows_escapes())
    }

    pub fn text(self, colour: Colour, text: &str) -> String {
        if self.0 { format!("\x1b[{}m{text}\x1b[0m", colour as u8) } else { text.into() }
    }
}

fn wanted(no_color: Option<&OsStr>) -> bool {
    no_color.is_none_or(OsStr::is_empty)
}

/// Whether the terminal, if there is one, knows more than plain lines.
pub fn knows_escapes() -> bool {
    std::env::var_os("TERM").is_some_and(|term| !term.is_empty() && term != "dumb")
}

#[cfg(test)]
mod tests {
    use super::*;

    #[test]
    fn no_color_is_honoured() {
        assert!(wanted(None) && wanted(Some(OsStr::new(""))));
        assert!(!wanted(Some(OsStr::new("1"))) && !wanted(Some(OsStr::new("0"))));
        assert_eq!(Paint(true).text(Colour::Bad, "x"), "\x1b[31mx\x1b[0m");
        assert_eq!(Paint(false).text(Colour::Bad, "x"), "x");
    }
}
