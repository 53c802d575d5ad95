//! What looks wrong in the entry of a loop, and in offsets where the count of loops is.

use super::{ENTRY, Finding, HEAD, be32, bodies_at, found, header, loops, zero_bytes};
use crate::text::{count, counted};
use doilycairn::Refusal;

/// What is wrong with the loop's entry, of a head that is as it should be.
pub fn findings(bytes: &[u8]) -> Vec<Finding> {
    let at = HEAD + ENTRY * be32(bytes, 52) as usize;
    let (total, start, end) = (be32(bytes, 4), be32(bytes, at), be32(bytes, at + 4));
    let words = [start_words(start, total), end_words(start, end, total)];
    // Only a start that is a sample's has a frame.
    let frame = match words {
        [None, None] => {
            let place = bodies_at(bytes) + 8 * (start / 14) as usize;
            header(bytes, at + 8, "the frame of its start", place)
        }
        _ => None,
    };
    let [start, end] = words;
    let zeros = zero_bytes(&bytes[at + 14..at + 16]);
    let tests = [(at, start), (at + 4, end), (at + 8, frame), (at + 14, zeros)];
    tests.into_iter().filter_map(|(at, words)| found((Refusal::BadLoop, at, words))).collect()
}

/// What is wrong with a start, whatever the end is.
fn start_words(start: u32, total: u32) -> Option<String> {
    let words = || {
        let has = counted(total, "sample", "samples");
        format!("its start is sample {}, and the clip has {has}", count(start))
    };
    (start >= total).then(words)
}

/// What is wrong with an end, where it is not the start that is wrong.
fn end_words(start: u32, end: u32, total: u32) -> Option<String> {
    let is = format!("its end is {}", count(end));
    match end {
        _ if end > total => {
            Some(format!("{is}, and the clip has {}", counted(total, "sample", "samples")))
        }
        _ if end <= start && start < total => {
            Some(format!("{is}, and has to be above its start, {}", count(start)))
        }
        _ => None,
    }
}

/// What is said of the first offset where it is as if there were a loop and there is none, or the other way round.
pub fn otherwise(bytes: &[u8], k: usize, wanted: usize) -> &'static str {
    let has = be32(bytes, HEAD) as usize;
    match loops(bytes) {
        0 if k == 0 && has == wanted + ENTRY => WITH,
        1 if k == 0 && has + ENTRY == wanted => WITHOUT,
        _ => "",
    }
}

const WITH: &str = "; with a loop (bytes 50 and 51: 00 01) it would be right";
const WITHOUT: &str = "; without a loop (bytes 50 and 51: 00 00) it would be right";
