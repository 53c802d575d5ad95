//! The list of calls on clips.

use super::{bytes, digest, digits, digits_of, list, number, words};
use doilycairn::{
    Coefficients, EncoderState, FrameContext, History, Loop, LoopState, Refusal, Start,
};

/// The length of the list's image buffer.
const ROOM: usize = 4096;

/// The state that a record says, with no loop.
fn state(record: &[u8]) -> EncoderState {
    let [newest, older] = words(&record[50..]);
    EncoderState {
        total: number(&record[4..]),
        rate: number(&record[8..]),
        block: number(&record[12..]),
        gain: u16::from_be_bytes([record[16], record[17]]),
        coefficients: Coefficients(words(&record[18..])),
        fed: number(&record[54..]),
        history: History { newest, older },
        frame: words(&record[62..]),
        passes: number(&record[58..]),
        closed: record[3] == 1,
        looped: LoopState::default(),
        loop_context: FrameContext::default(),
    }
}

/// The state with the loop that a record says, and the context at its start.
fn with_loop(state: EncoderState, record: &[u8]) -> EncoderState {
    let (start, end) = (number(&record[4..]), number(&record[8..]));
    let looped = LoopState { start, end, present: record[3] != 0 };
    let predictor_and_scale = u16::from_be_bytes([record[12], record[13]]);
    let loop_context = FrameContext { predictor_and_scale, last_samples: words(&record[14..]) };
    EncoderState { looped, loop_context, ..state }
}

/// The start that a record says, with this loop if the record asks for it.
fn start(record: &[u8], looped: Option<Loop>) -> Start {
    let EncoderState { total, rate, block, gain, coefficients, history, .. } = state(record);
    let looped = looped.filter(|_| record[3] != 0);
    Start { total, rate, block_size: block, gain, coefficients, history, looped }
}

/// The state of no clip, which a refused start gives.
fn no_clip() -> EncoderState {
    state(&[0; 90])
}

/// The words of an answer.
fn fields(state: &EncoderState) -> String {
    let EncoderState { total, rate, block, gain, fed, passes, .. } = *state;
    let coefficients = digits_of(&state.coefficients.0);
    let history = digits_of(&[state.history.newest, state.history.older]);
    let (frame, closed) = (digits_of(&state.frame), u8::from(state.closed));
    let looped = loop_fields(state.looped, state.loop_context);
    format!(
        "{total:08x} {rate:08x} {block:08x} {gain:04x} {coefficients} {history} {fed:08x} {passes:08x} {frame} {closed:02x}{looped}"
    )
}

/// The words of a loop and its context, where one of their numbers is not zero.
fn loop_fields(looped: LoopState, context: FrameContext) -> String {
    if (looped, context) == Default::default() {
        return String::new();
    }
    let LoopState { start, end, present } = looped;
    let (header, history) = (context.predictor_and_scale, digits_of(&context.last_samples));
    format!(" {start:08x} {end:08x} {:02x} {header:04x} {history}", u8::from(present))
}

struct Machine {
    state: EncoderState,
    image: Vec<u8>,
    piece: Vec<i16>,
}

impl Machine {
    /// Takes a line, and gives its answer if it has one.
    fn take(&mut self, letter: &str, record: &[u8]) -> Option<String> {
        let lent = usize::from(u16::from_be_bytes([record[0], record[1]]));
        let image = &mut self.image[..lent];
        if matches!(letter, "b" | "f") {
            self.piece.extend(&words::<42>(&record[4..])[..record[3].into()]);
        }
        let (result, refused) = match letter {
            "n" => {
                self.image = (0..ROOM).map(|place| (place % 251) as u8).collect();
                return None;
            }
            "p" => {
                self.state = state(record);
                return None;
            }
            "l" => {
                self.state = with_loop(self.state, record);
                return None;
            }
            "b" => return None,
            "s" => {
                let start = start(record, self.state.looped.looped());
                (EncoderState::start(&start, image), no_clip())
            }
            "f" => {
                let piece = std::mem::take(&mut self.piece);
                (self.state.feed(&piece, image), self.state)
            }
            _ => (self.state.close(image), self.state),
        };
        self.state = result.unwrap_or(refused);
        let code = result.err().map_or(0, Refusal::number);
        let lent = &self.image[..lent];
        let line = format!("{code:02x} {} {:010x}", fields(&self.state), digest(lent));
        Some(if record[2] == 1 { format!("{line} {}", digits(lent)) } else { line })
    }
}

#[test]
fn clips() {
    let (lines, answers) = list("clip_list");
    let mut machine = Machine { state: no_clip(), image: vec![0; ROOM], piece: vec![] };
    let mut answers = answers.iter();
    for line in &lines {
        if let Some(answer) = machine.take(&line[..1], &bytes(&line[1..])) {
            assert_eq!(answer.trim_end(), answers.next().unwrap().trim_end(), "{line}");
        }
    }
    assert_eq!(answers.next(), None);
}
