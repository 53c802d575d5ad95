//! Calls of starting, feeding and closing, refused ones and states put in between.

use crate::convert::{library_start, library_state, number, state};
use crate::tally::Tally;
use clip_list::{Case, MOST_ROOM, Machine, State, Step};
use doilycairn::{EncoderState, Refusal};
use oracle::random::Random;

/// The calls of the fixed list.
pub fn fixed(tally: &mut Tally) {
    clip_list::cases().iter().for_each(|case| compare(case, tally));
}

/// The calls on a random clip.
pub fn random(random: &mut Random, tally: &mut Tally) {
    compare(&clip_list::random_clip(random), tally);
}

/// Each call's answer, and the whole buffer after it.
pub fn compare(case: &Case, tally: &mut Tally) {
    let mut machine = Machine::default();
    let mut library = Library { state: State::default(), image: machine.image.clone() };
    for step in &case.0 {
        let code = machine.take(step);
        let right = if code == 0 { Ok(machine.state.clone()) } else { Err(code) };
        let answer = library.take(step).map_err(number);
        if step.lent().is_some() {
            tally.compare(name(step), case, answer, right);
            tally.compare("buffer", case, library.image.clone(), machine.image.clone());
        }
    }
}

fn name(step: &Step) -> &'static str {
    match step {
        Step::Start { .. } => "start",
        Step::Feed { .. } => "feed",
        _ => "close",
    }
}

/// The library's state and image buffer.
struct Library {
    state: State,
    image: Vec<u8>,
}

impl Library {
    /// Takes a step. A refused start leaves no state.
    fn take(&mut self, step: &Step) -> Result<State, Refusal> {
        let now = library_state(&self.state);
        let after = match step {
            Step::New => {
                self.image = (0..MOST_ROOM).map(|place| (place % 251) as u8).collect();
                now
            }
            Step::Put(state) => library_state(state),
            Step::Start { start, room, .. } => {
                self.state = State::default();
                EncoderState::start(&library_start(start), &mut self.image[..*room])?
            }
            Step::Feed { piece, room, .. } => now.feed(piece, &mut self.image[..*room])?,
            Step::Close { room, .. } => now.close(&mut self.image[..*room])?,
        };
        self.state = state(&after);
        Ok(self.state.clone())
    }
}
