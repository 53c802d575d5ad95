//! Calls on two images, as lines of the list and of the answers.

use crate::call::Call;
use clip_list::hexadecimal;
use oracle::list::Listed;

/// The longest image, the longest output, and the bytes that a line puts.
pub const MOST_BYTES: usize = 1024;
pub const MOST_ROOM: usize = 512;
pub const LINE: usize = 24;

/// The images that bytes are put into.
#[derive(Debug, Clone, Copy, PartialEq)]
pub enum To {
    Both,
    First,
    Second,
}

/// Bytes that are put, or a call with the lengths of the images that it is lent.
#[derive(Debug, Clone, PartialEq)]
pub enum Step {
    Put { to: To, place: usize, bytes: Vec<u8> },
    Call { call: Call, lens: [usize; 2] },
}

/// Steps on two images. They lend only bytes that they put before.
#[derive(Debug, Clone, Default, PartialEq)]
pub struct Case(pub Vec<Step>);

impl Listed for Case {
    fn inputs(&self) -> String {
        self.0.iter().map(line).collect()
    }

    fn answers(&self) -> String {
        let mut machine = Machine::default();
        let answers = self.0.iter().filter_map(|step| machine.take(step));
        answers.map(|answer| answer + "\n").collect()
    }
}

/// The bytes of the two images that were put.
#[derive(Debug, Default)]
pub struct Machine {
    pub images: [Vec<u8>; 2],
}

impl Machine {
    /// Takes a step: a call is answered.
    pub fn take(&mut self, step: &Step) -> Option<String> {
        match step {
            Step::Put { to, place, bytes } => {
                self.images_of(*to).iter_mut().for_each(|image| put(image, *place, bytes));
                None
            }
            Step::Call { call, lens: [first, second] } => {
                Some(call.answer(&self.images[0][..*first], &self.images[1][..*second]))
            }
        }
    }

    fn images_of(&mut self, to: To) -> &mut [Vec<u8>] {
        match to {
            To::Both => &mut self.images,
            To::First => &mut self.images[..1],
            To::Second => &mut self.images[1..],
        }
    }
}

/// Puts bytes over others, or behind the last.
fn put(image: &mut Vec<u8>, place: usize, bytes: &[u8]) {
    let end = place + bytes.len();
    assert!(place <= image.len() && end <= MOST_BYTES);
    image.resize(image.len().max(end), 0);
    image[place..end].copy_from_slice(bytes);
}

/// The line of a step.
fn line(step: &Step) -> String {
    let (letter, mut record) = match step {
        Step::Put { to, place, bytes } => (letter(*to), put_record(*place, bytes)),
        Step::Call { call, lens } => (call.letter(), call_record(*call, *lens)),
    };
    record.resize(3 + LINE, 0);
    format!("{letter}{}\n", hexadecimal(&record))
}

fn letter(to: To) -> char {
    match to {
        To::Both => 'b',
        To::First => 'f',
        To::Second => 'g',
    }
}

fn put_record(place: usize, bytes: &[u8]) -> Vec<u8> {
    assert!(place + LINE <= MOST_BYTES && bytes.len() <= LINE);
    let [high, low] = (place as u16).to_be_bytes();
    [&[high, low, bytes.len() as u8], bytes].concat()
}

fn call_record(call: Call, [first, second]: [usize; 2]) -> Vec<u8> {
    let (k, room) = call.numbers();
    assert!(room <= MOST_ROOM);
    let [first, second, room] = [first, second, room].map(|len| (len as u16).to_be_bytes());
    [&first[..], &second, &k.to_be_bytes(), &room].concat()
}
