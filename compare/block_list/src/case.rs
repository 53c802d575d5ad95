//! A call on blocks, as a line of the list and as a line of the answers.

use oracle::list::Listed;
use oracle::{Coefficients, FrameContext, address_to_sample, decode, join, sample_to_address};

/// The most bytes a block has, and the most samples or bytes an output has.
pub const MOST_BYTES: usize = 48;
pub const MOST_ROOM: usize = 96;

/// A block's bytes, its length in nibbles and its coefficients.
#[derive(Debug, Clone, PartialEq)]
pub struct Part {
    pub bytes: Vec<u8>,
    pub len: u32,
    pub coefficients: Coefficients,
}

/// A call.
#[derive(Debug, Clone, PartialEq)]
pub enum Case {
    Play { part: Part, context: FrameContext, room: usize },
    Join { first: Part, second: Part, room: usize },
    Addresses(u32),
}

/// Whether a pair has both -32,768.
pub fn has_lowest_pair(coefficients: &Coefficients) -> bool {
    coefficients.as_chunks::<2>().0.contains(&[i16::MIN, i16::MIN])
}

impl Listed for Case {
    /// The record in hexadecimal digits.
    fn inputs(&self) -> String {
        let empty = Part { bytes: vec![], len: 0, coefficients: [0; 16] };
        let (kind, first, second, context, room) = match self {
            Self::Play { part, context, room } => (0, part.clone(), empty, *context, *room),
            Self::Join { first, second, room } => {
                (1, first.clone(), second.clone(), FrameContext::default(), *room)
            }
            Self::Addresses(value) => {
                (2, Part { len: *value, ..empty.clone() }, empty, FrameContext::default(), 0)
            }
        };
        assert!(
            first.bytes.len() <= MOST_BYTES
                && second.bytes.len() <= MOST_BYTES
                && room <= MOST_ROOM
        );
        let mut record = vec![kind, first.bytes.len() as u8, second.bytes.len() as u8, room as u8];
        record.extend(first.len.to_be_bytes());
        record.extend(second.len.to_be_bytes());
        record.extend(context.predictor_and_scale.to_be_bytes());
        record.extend(context.last_samples.iter().flat_map(|sample| sample.to_be_bytes()));
        record.extend(first.coefficients.iter().flat_map(|value| value.to_be_bytes()));
        record.extend(second.coefficients.iter().flat_map(|value| value.to_be_bytes()));
        record.extend(&first.bytes);
        record.resize(82 + MOST_BYTES, 0);
        record.extend(&second.bytes);
        record.resize(82 + 2 * MOST_BYTES, 0);
        hexadecimal(&record) + "\n"
    }

    fn answers(&self) -> String {
        let answer = match self {
            Self::Play { part, context, room } => played(part, *context, *room),
            Self::Join { first, second, room } => joined(first, second, *room),
            Self::Addresses(value) => {
                let value = *value as usize;
                format!("00 {:09x} {:09x}", address_to_sample(value), sample_to_address(value))
            }
        };
        answer + "\n"
    }
}

/// Two digits each.
fn hexadecimal(bytes: &[u8]) -> String {
    bytes.iter().map(|byte| format!("{byte:02x}")).collect()
}

/// The refusal's number of playing, 0 where it is accepted.
pub fn play_code(part: &Part, room: usize) -> u8 {
    let len = part.len as usize;
    if len == 0 || len > 2 * part.bytes.len() {
        12
    } else if has_lowest_pair(&part.coefficients) {
        13
    } else if room < address_to_sample(len) {
        14
    } else {
        0
    }
}

/// What playing leaves.
fn played(part: &Part, context: FrameContext, room: usize) -> String {
    let mut output = vec![0x5a5a_u16; room];
    let len = part.len as usize;
    let code = play_code(part, room);
    if code != 0 {
        return format!("{code:02x} {:09x} {} {}", 0, words_of_context(context), words(&output));
    }
    let (samples, after) = decode(&part.bytes, len, &part.coefficients, context);
    for (place, sample) in output.iter_mut().zip(&samples) {
        *place = *sample as u16;
    }
    format!("00 {:09x} {} {}", samples.len(), words_of_context(after), words(&output))
}

/// What joining leaves.
fn joined(first: &Part, second: &Part, room: usize) -> String {
    let mut output = vec![0x5a_u8; room];
    let answer = if room < first.bytes.len() + second.bytes.len() {
        "0e 000000000".to_string()
    } else {
        match join(&first.bytes, &first.coefficients, &second.bytes, &second.coefficients) {
            Ok(bytes) => {
                output[..bytes.len()].copy_from_slice(&bytes);
                format!("00 {:09x}", u64::from(first.len) + u64::from(second.len))
            }
            Err(_) => "12 000000000".to_string(),
        }
    };
    format!("{answer} {}", hexadecimal(&output))
}

/// The header and the two samples.
fn words_of_context(context: FrameContext) -> String {
    let [newest, older] = context.last_samples.map(|sample| sample as u16);
    words(&[context.predictor_and_scale, newest, older])
}

/// Four digits each.
fn words(values: &[u16]) -> String {
    values.iter().map(|value| format!("{value:04x}")).collect()
}
