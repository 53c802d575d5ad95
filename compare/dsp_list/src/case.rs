//! Calls on a source and an output, as lines of the list and of the answers.

use crate::call::{Answer, Call, line};
use clip_list::hexadecimal;
use oracle::list::Listed;

/// The length of either buffer, and the bytes that a line puts.
pub const MOST_BYTES: usize = 1024;
pub const LINE: usize = 12;

/// Bytes that are put into the source, an exchange of source and output, or a call with the length of the source that it is lent.
#[derive(Debug, Clone, PartialEq)]
pub enum Step {
    Put { place: usize, bytes: Vec<u8> },
    Swap,
    Call { call: Call, len: usize, shown: bool },
}

/// Steps on two buffers. They lend only bytes that they put, or that a call left in the output, before.
#[derive(Debug, Clone, Default, PartialEq)]
pub struct Case(pub Vec<Step>);

impl Listed for Case {
    fn inputs(&self) -> String {
        self.0.iter().map(step_line).collect()
    }

    fn answers(&self) -> String {
        let mut machine = Machine::default();
        let answers = self.0.iter().filter_map(|step| machine.take(step));
        answers.map(|(_, line)| line + "\n").collect()
    }
}

/// The bytes of source and output that are known.
#[derive(Debug, Default)]
pub struct Machine {
    pub source: Vec<u8>,
    pub output: Vec<u8>,
}

/// What the output holds before a call.
pub fn pattern(len: usize) -> Vec<u8> {
    (0..len).map(|place| (place % 251) as u8).collect()
}

impl Machine {
    /// Takes a step: a call is answered, and its line written.
    pub fn take(&mut self, step: &Step) -> Option<(Answer, String)> {
        match step {
            Step::Put { place, bytes } => self.put(*place, bytes),
            Step::Swap => std::mem::swap(&mut self.source, &mut self.output),
            Step::Call { call, len, shown } => return Some(self.call(*call, *len, *shown)),
        }
        None
    }

    /// Puts bytes over others, or behind the last.
    fn put(&mut self, place: usize, bytes: &[u8]) {
        let end = place + bytes.len();
        assert!(place <= self.source.len() && end <= MOST_BYTES);
        self.source.resize(self.source.len().max(end), 0);
        self.source[place..end].copy_from_slice(bytes);
    }

    fn call(&mut self, call: Call, len: usize, shown: bool) -> (Answer, String) {
        let (answer, written) = call.made(&self.source[..len]);
        self.output = pattern(MOST_BYTES);
        self.output[..written.len()].copy_from_slice(&written);
        (answer, line(answer, &self.output[..call.room()], shown))
    }
}

/// The line of a step.
fn step_line(step: &Step) -> String {
    let (letter, mut record) = match step {
        Step::Put { place, bytes } => ('p', put_record(*place, bytes)),
        Step::Swap => ('s', vec![]),
        Step::Call { call, len, shown } => (call.letter(), call_record(*call, *len, *shown)),
    };
    record.resize(3 + LINE, 0);
    format!("{letter}{}\n", hexadecimal(&record))
}

fn put_record(place: usize, bytes: &[u8]) -> Vec<u8> {
    assert!(place + LINE <= MOST_BYTES && bytes.len() <= LINE);
    let [high, low] = (place as u16).to_be_bytes();
    [&[high, low, bytes.len() as u8], bytes].concat()
}

fn call_record(call: Call, len: usize, shown: bool) -> Vec<u8> {
    assert!(call.room() <= MOST_BYTES && len <= MOST_BYTES);
    let [len, room] = [len, call.room()].map(|len| (len as u16).to_be_bytes());
    [&len[..], &room, &call.size().to_be_bytes(), &[shown.into()]].concat()
}
