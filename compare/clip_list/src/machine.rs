//! The calls' effect: on the state and on the image buffer.

use crate::case::{MOST_ROOM, Step};
use crate::codes::{close_code, feed_code, start_code};
use crate::image::fresh_image;
use crate::run::Run;
use crate::state::{Start, State};

/// The state and the image buffer, and what they came from.
pub struct Machine {
    pub state: State,
    pub image: Vec<u8>,
    run: Run,
}

impl Default for Machine {
    fn default() -> Self {
        let image = vec![0; MOST_ROOM];
        Self { state: State::default(), image, run: Run::default() }
    }
}

impl Machine {
    /// Takes a step: 0 or the refusal's number.
    pub fn take(&mut self, step: &Step) -> u8 {
        match step {
            Step::New => {
                self.image = (0..MOST_ROOM).map(|place| (place % 251) as u8).collect();
                self.go_on_from(None);
                0
            }
            Step::Put(state) => {
                self.state = state.clone();
                self.go_on_from(None);
                0
            }
            Step::Start { start, room, .. } => self.start(start, *room),
            Step::Feed { piece, room, .. } => self.feed(piece, *room),
            Step::Close { room, .. } => self.close(*room),
        }
    }

    /// Takes the state and the buffer as they are.
    fn go_on_from(&mut self, start: Option<Start>) {
        self.run = Run::new(self.state.clone(), self.image.clone(), start);
    }

    fn start(&mut self, start: &Start, room: usize) -> u8 {
        let code = start_code(start, room);
        if code == 0 {
            let fresh = fresh_image(start);
            self.image[..fresh.len()].copy_from_slice(&fresh);
            self.state = start.state();
            self.go_on_from(Some(start.clone()));
        } else {
            self.state = State::default();
            self.go_on_from(None);
        }
        code
    }

    fn feed(&mut self, piece: &[i16], room: usize) -> u8 {
        let code = feed_code(&self.state, piece.len(), room);
        if code == 0 {
            self.run.push(piece);
            (self.state, self.image) = self.run.now(false);
        }
        code
    }

    fn close(&mut self, room: usize) -> u8 {
        let code = close_code(&self.state, room);
        if code == 0 {
            (self.state, self.image) = self.run.now(true);
        }
        code
    }
}
