//! The fields of a .dsp file's header, and what of them is not as listed: a help for people, worked out beside the library, which alone decides.

use super::HEADER;
use crate::findings::Finding;
use crate::text::{count, counted};
use doilycairn::{Refusal, address_to_sample, sample_to_address};

/// A field of the header.
#[derive(Clone, Copy, Debug, PartialEq, Eq)]
pub struct Field {
    pub at: usize,
    pub len: usize,
    name: &'static str,
    kind: Kind,
}

/// How a value is told.
#[derive(Clone, Copy, Debug, PartialEq, Eq)]
enum Kind {
    Number,
    Sample,
    Bytes,
}

const fn number(at: usize, len: usize, name: &'static str) -> Field {
    Field { at, len, name, kind: Kind::Number }
}

const fn sample(at: usize, name: &'static str) -> Field {
    Field { at, len: 2, name, kind: Kind::Sample }
}

const fn bytes(at: usize, len: usize, name: &'static str) -> Field {
    Field { at, len, name, kind: Kind::Bytes }
}

pub const TOTAL: Field = number(0, 4, "the sample count");
pub const NIBBLES: Field = number(4, 4, "the nibble count");
pub const FLAG: Field = number(12, 2, "the loop flag");
const FORMAT: Field = number(14, 2, "the format number");
const LOOP_START: Field = number(16, 4, "the loop start address");
const LOOP_LAST: Field = number(20, 4, "the address of the loop's last sample");
pub const START: Field = number(24, 4, "the start address");
const FIRST: Field = bytes(62, 2, "the first header");
const LOOP_FIRST: Field = bytes(68, 2, "the loop header");
const LOOP_NEWEST: Field = sample(70, "the newest sample before the loop");
const LOOP_OLDER: Field = sample(72, "the older sample before the loop");
pub const CHANNELS: Field = number(74, 2, "the channel count");
pub const REST: Field = bytes(76, 20, "the rest of the header");

/// The fields of a loop.
pub const OF_LOOP: [Field; 5] = [LOOP_START, LOOP_LAST, LOOP_FIRST, LOOP_NEWEST, LOOP_OLDER];

impl Field {
    /// Its bytes.
    pub fn of(self, file: &[u8]) -> &[u8] {
        &file[self.at..][..self.len]
    }

    /// Its number, of a field of up to four bytes.
    pub fn number(self, file: &[u8]) -> u64 {
        self.of(file).iter().fold(0, |number, byte| number << 8 | u64::from(*byte))
    }

    /// What it holds, in words.
    fn is(self, file: &[u8]) -> String {
        format!("{} is {}", self.name, self.shown(self.of(file)))
    }

    /// What it held, and what it holds now.
    pub fn was(self, was: &[u8], is: &[u8]) -> String {
        format!("{} was {} and is {} now", self.name, self.shown(was), self.shown(is))
    }

    /// A value of it in words.
    fn shown(self, value: &[u8]) -> String {
        let number = value.iter().fold(0u64, |number, byte| number << 8 | u64::from(*byte));
        match self.kind {
            Kind::Number => count(number),
            Kind::Sample => count(number as u16 as i16),
            Kind::Bytes if value.len() > 4 && value.iter().all(|byte| *byte == 0) => "zeros".into(),
            Kind::Bytes => {
                value.iter().map(|byte| format!("{byte:02x}")).collect::<Vec<_>>().join(" ")
            }
        }
    }
}

/// The nibbles of so many samples, headers counted.
pub fn nibbles(total: u64) -> u64 {
    total + 2 * total.div_ceil(14)
}

/// A field, and what is to be said after what it holds where it is not as listed.
type Test = (Field, Option<String>);

/// What is not as listed, in the library's sequence, of a file that has the bytes that its samples need.
pub fn wrong(file: &[u8]) -> Vec<Finding> {
    let total = TOTAL.number(file);
    let samples = format!(", that of {}", counted(total, "sample", "samples"));
    let (flag, channels) = (FLAG.number(file), CHANNELS.number(file));
    let interleaved =
        if channels > 1 { ": bodies of several channels are interleaved" } else { "" };
    let tests = [
        (NIBBLES, unequal(NIBBLES, file, nibbles(total), &samples)),
        (FLAG, (flag > 1).then(|| " and not 0 or 1".into())),
        (FORMAT, unequal(FORMAT, file, 0, "")),
        (START, unequal(START, file, 2, "")),
        (CHANNELS, unequal(CHANNELS, file, 0, interleaved)),
        (REST, REST.of(file).iter().any(|byte| *byte != 0).then(|| " and not zeros".into())),
        (FIRST, header(FIRST, file, HEADER, "the first frame")),
    ];
    let of_loop = match flag {
        0 => OF_LOOP.map(|field| (field, zero(field, file))).to_vec(),
        1 => looped(file, total),
        _ => vec![],
    };
    tests.into_iter().chain(of_loop).filter_map(|test| found(file, test)).collect()
}

fn found(file: &[u8], (field, words): Test) -> Option<Finding> {
    let (refusal, byte) = (Refusal::BadField, field.at);
    words.map(|words| Finding { refusal, byte, words: field.is(file) + &words })
}

/// What is said of a number that is another, with what is to be said after it.
fn unequal(field: Field, file: &[u8], wanted: u64, more: &str) -> Option<String> {
    (field.number(file) != wanted).then(|| format!(" and not {}{more}", count(wanted)))
}

/// What is said of a loop's field where there is no loop.
fn zero(field: Field, file: &[u8]) -> Option<String> {
    let wanted = field.shown(&[0; 4][..field.len]);
    (field.number(file) != 0).then(|| format!(" and not {wanted}: there is no loop"))
}

/// What is said of a header that is not that of a frame at this place.
fn header(field: Field, file: &[u8], place: usize, frame: &str) -> Option<String> {
    let first = file[place];
    (field.number(file) != first.into())
        .then(|| format!(", and {frame} at byte {} begins with {first:02x}", count(place as u64)))
}

/// The fields of a loop that there is: addresses of samples, in order, and the header of the frame that holds the start.
fn looped(file: &[u8], total: u64) -> Vec<Test> {
    let [start, last] = [LOOP_START, LOOP_LAST].map(|field| field.number(file));
    match [start, last].map(|address| no_sample(address, total)) {
        [None, None] if last < start => {
            let words = format!(" and below the loop start address, {}", count(start));
            vec![(LOOP_LAST, Some(words))]
        }
        [None, None] => {
            let place = HEADER + 8 * (start / 16) as usize;
            vec![(LOOP_FIRST, header(LOOP_FIRST, file, place, "the frame of its start"))]
        }
        [start, last] => vec![(LOOP_START, start), (LOOP_LAST, last)],
    }
}

/// What is said of an address that is not one of so many samples.
fn no_sample(address: u64, total: u64) -> Option<String> {
    let last = sample_to_address(total.saturating_sub(1) as u32);
    match address {
        _ if address % 16 < 2 => {
            Some(" and in a frame's header: a sample's is 2 to 15 above a multiple of 16".into())
        }
        _ if address_to_sample(address as u32) >= total => {
            Some(format!(" and above that of the last sample, {}", count(last)))
        }
        _ => None,
    }
}
