//! What --lenient mends: the fields that carry no sound, and no other.

use super::HEADER;
use super::fields::{CHANNELS, FLAG, Field, OF_LOOP, REST, START};
use crate::json::Json;
use std::fmt;

/// A field that was mended.
#[derive(Debug, PartialEq, Eq)]
pub struct Mended {
    field: Field,
    was: Vec<u8>,
    is: Vec<u8>,
}

impl fmt::Display for Mended {
    fn fmt(&self, f: &mut fmt::Formatter) -> fmt::Result {
        write!(f, "byte {}: {}", self.field.at, self.field.was(&self.was, &self.is))
    }
}

impl Mended {
    /// Its first byte, and its bytes before and after, in hexadecimal.
    pub fn json<'a>(&self) -> Json<'a> {
        let digits = |bytes: &[u8]| bytes.iter().map(|byte| format!("{byte:02x}")).collect();
        Json::Object(vec![
            ("byte", Json::Whole(self.field.at as i64)),
            ("was", Json::Text(digits(&self.was))),
            ("is", Json::Text(digits(&self.is))),
        ])
    }
}

/// Mends the header of a file, and gives what was another before, by rising byte.
///
/// Without a loop nothing is played from its fields. The start address 0 means what 2 means, the beginning of the first frame. Up to byte 95 nothing is
/// played from what stands there, but for two channels or more: their bodies are interleaved.
pub fn mend(file: &mut [u8]) -> Vec<Mended> {
    let mut mended = vec![];
    if file.len() < HEADER {
        return mended;
    }
    if FLAG.number(file) == 0 {
        mended.extend(OF_LOOP.into_iter().filter_map(|field| put(file, field, 0)));
    }
    if START.number(file) == 0 {
        mended.extend(put(file, START, 2));
    }
    if CHANNELS.number(file) <= 1 {
        mended.extend([CHANNELS, REST].into_iter().filter_map(|field| put(file, field, 0)));
    }
    mended.sort_by_key(|mended| mended.field.at);
    mended
}

/// Puts a number of one byte into a field, unless it is there.
fn put(file: &mut [u8], field: Field, number: u8) -> Option<Mended> {
    let (was, mut is) = (field.of(file).to_vec(), vec![0; field.len]);
    is[field.len - 1] = number;
    file[field.at..][..field.len].copy_from_slice(&is);
    (was != is).then_some(Mended { field, was, is })
}
