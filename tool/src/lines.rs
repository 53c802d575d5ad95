//! Lines are written whole: what several runs write at once to one place does not mix within a line.

use std::io::{self, Write};

/// What is gathered before it is written.
const FULL: usize = 1 << 16;

/// The longest line that is gathered whole.
const LONGEST: usize = 1 << 22;

/// Gathers whole lines, and hands them on in few writes.
pub struct Lines<W: Write> {
    inner: W,
    gathered: Vec<u8>,
    /// Bytes of whole lines among them.
    whole: usize,
}

impl<W: Write> Lines<W> {
    pub fn new(inner: W) -> Self {
        Self { inner, gathered: vec![], whole: 0 }
    }
}

impl<W: Write> Write for Lines<W> {
    fn write(&mut self, bytes: &[u8]) -> io::Result<usize> {
        if let Some(at) = bytes.iter().rposition(|byte| *byte == b'\n') {
            self.whole = self.gathered.len() + at + 1;
        }
        if self.gathered.try_reserve(bytes.len()).is_err() {
            // No room to gather more: as it comes.
            self.flush()?;
            self.inner.write_all(bytes)?;
            return Ok(bytes.len());
        }
        self.gathered.extend(bytes);
        let all = self.gathered.len();
        let whole = if all > FULL { self.whole } else { 0 };
        let ready = if all > LONGEST { all } else { whole };
        if ready > 0 {
            self.inner.write_all(&self.gathered[..ready])?;
            self.gathered.drain(..ready);
            self.whole = 0;
        }
        Ok(bytes.len())
    }

    fn flush(&mut self) -> io::Result<()> {
        self.inner.write_all(&self.gathered)?;
        self.gathered.clear();
        self.whole = 0;
        self.inner.flush()
    }
}

#[cfg(test)]
mod tests {
    use super::*;

    /// Keeps each write.
    struct Writes(Vec<Vec<u8>>);

    impl Write for &mut Writes {
        fn write(&mut self, bytes: &[u8]) -> io::Result<usize> {
            self.0.push(bytes.to_vec());
            Ok(bytes.len())
        }

        fn flush(&mut self) -> io::Result<()> {
            Ok(())
        }
    }

    #[test]
    fn writes_end_with_lines() {
        let (mut writes, mut wanted) = (Writes(vec![]), vec![]);
        let mut lines = Lines::new(&mut writes);
        for i in 0..30_000 {
            for part in ["line ", &i.to_string(), ": ", "words", "\n"] {
                lines.write_all(part.as_bytes()).unwrap();
                wanted.extend(part.bytes());
            }
        }
        lines.flush().unwrap();
        assert!((5..20).contains(&writes.0.len()));
        assert!(writes.0.iter().all(|write| write.ends_with(b"\n")));
        assert_eq!(writes.0.concat(), wanted);
    }

    #[test]
    fn a_line_without_end_is_handed_on() {
        let mut writes = Writes(vec![]);
        let mut lines = Lines::new(&mut writes);
        for _ in 0..100 {
            lines.write_all(&[b'x'; 100_000]).unwrap();
        }
        lines.flush().unwrap();
        assert_eq!(writes.0.concat().len(), 10_000_000);
        assert!(writes.0.len() >= 2);
    }
}
