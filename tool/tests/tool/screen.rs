//! What a terminal shows: as much of one as the tool and a shell need.

/// Rows of letters, and the place of the cursor.
#[derive(Default)]
pub struct Screen {
    rows: Vec<Vec<char>>,
    row: usize,
    column: usize,
}

impl Screen {
    /// The screen after this text.
    pub fn of(text: &str) -> Self {
        let mut screen = Self::default();
        let mut letters = text.chars();
        while let Some(letter) = letters.next() {
            match letter {
                '\x1b' => screen.escape(&mut letters),
                '\r' => screen.column = 0,
                '\n' => screen.row += 1,
                '\x08' => screen.column = screen.column.saturating_sub(1),
                letter if letter.is_control() => {}
                letter => screen.put(letter),
            }
        }
        screen
    }

    pub fn text(&self) -> String {
        let rows = self.rows.iter().map(|row| row.iter().collect::<String>());
        rows.map(|row| row.trim_end().to_string()).collect::<Vec<_>>().join("\n")
    }

    fn put(&mut self, letter: char) {
        self.rows.resize(self.rows.len().max(self.row + 1), vec![]);
        let row = &mut self.rows[self.row];
        row.resize(row.len().max(self.column + 1), ' ');
        row[self.column] = letter;
        self.column += 1;
    }

    fn escape(&mut self, letters: &mut impl Iterator<Item = char>) {
        if letters.next() != Some('[') {
            return;
        }
        let end = |letter: &char| letter.is_ascii_alphabetic();
        let Some(end) = letters.find(end) else { return };
        match end {
            'A' => self.row = self.row.saturating_sub(1),
            'K' => self.clear_line(),
            'J' => {
                self.clear_line();
                self.rows.truncate(self.row + 1);
            }
            'm' | 'h' | 'l' => {}
            other => panic!("an escape that is not known: {other}"),
        }
    }

    /// Clears the line from the cursor on.
    fn clear_line(&mut self) {
        if let Some(row) = self.rows.get_mut(self.row) {
            row.truncate(self.column);
        }
    }
}

#[test]
fn letters_stand_where_they_were_put() {
    assert_eq!(Screen::of("ab\r\nc\x1b[Ad\r\n").text(), "ad\nc");
    assert_eq!(Screen::of("abc\rx\x1b[K").text(), "x");
    assert_eq!(Screen::of("ab\r\n\r\nlow\x1b[A\r\x1b[Jx").text(), "ab\nx");
    assert_eq!(Screen::of("\x1b[?2004h$ \x1b[31mred\x1b[0m").text(), "$ red");
}
