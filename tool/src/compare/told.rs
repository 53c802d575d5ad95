//! What differs, in words and as JSON.

use super::differing::{Differing, Found};
use crate::json::{Fields, Json};
use crate::loops;
use crate::text::count;
use doilycairn::Loop;

impl Differing {
    /// What differs, in a sentence without a full stop; of a long list the first and how many.
    pub fn words(&self) -> String {
        match self {
            Self::Rate(values) => format!("rate {}", numbers(*values)),
            Self::Gain(values) => format!("gain {}", numbers(*values)),
            Self::BlockSize(values) => format!("block size {}", numbers(*values)),
            Self::Coefficients { pair, values } => {
                format!("coefficients: pair {pair} is {}", pairs(values))
            }
            Self::Histories { blocks, found } => {
                in_blocks(*blocks, found, ["after", "after other samples"], &pairs(&found.values))
            }
            Self::Headers { blocks, found } => {
                let how = ["with header", "with another header"];
                in_blocks(*blocks, found, how, &headers(found.values))
            }
            Self::Loop(values) => values.map(looped).join(" and "),
            Self::LoopHistory(values) => format!("the loop begins after {}", pairs(values)),
            Self::LoopHeader(values) => format!("the loop begins with header {}", headers(*values)),
            Self::Total(values) => format!("{} samples", numbers(*values)),
            Self::Samples { total, found } => in_samples(*total, found),
        }
    }

    /// An object: what differs, where, and both values.
    pub fn json<'a>(&self) -> Json<'a> {
        let (what, mut fields, values) = match self {
            Self::Rate(values) => ("rate", vec![], Json::numbers(*values)),
            Self::Gain(values) => ("gain", vec![], Json::numbers(*values)),
            Self::BlockSize(values) => ("block_size", vec![], Json::numbers(*values)),
            Self::Coefficients { pair, values } => {
                ("coefficients", vec![("pair", Json::Whole(*pair as i64))], lists(values))
            }
            Self::Histories { found, .. } => {
                ("history", found.fields("blocks", "block"), lists(&found.values))
            }
            Self::Headers { found, .. } => {
                let place = found.fields("blocks", "block");
                ("predictor_and_scale", place, Json::numbers(found.values))
            }
            Self::Loop(values) => ("loop", vec![], Json::list(values.map(points))),
            Self::LoopHistory(values) => ("loop_history", vec![], lists(values)),
            Self::LoopHeader(values) => {
                ("loop_predictor_and_scale", vec![], Json::numbers(*values))
            }
            Self::Total(values) => ("sample_count", vec![], Json::numbers(*values)),
            Self::Samples { found, .. } => {
                ("samples", found.fields("samples", "first"), Json::numbers(found.values))
            }
        };
        fields.insert(0, ("what", Json::text(what)));
        fields.push(("values", values));
        Json::Object(fields)
    }
}

impl<T> Found<T> {
    /// How many, and the first of them.
    fn fields<'a>(&self, many: &'static str, first: &'static str) -> Fields<'a> {
        vec![(many, Json::Whole(self.count as i64)), (first, Json::Whole(self.first as i64))]
    }
}

/// How samples differ, of two clips of one length; null where they do not.
pub fn difference<'a>(differs: &[Differing]) -> Json<'a> {
    let found = differs.iter().find_map(|what| match what {
        Differing::Samples { found, .. } => Some(found),
        _ => None,
    });
    found.map_or(Json::Null, |found| {
        let mut fields = found.fields("samples", "first");
        fields.push(("values", Json::numbers(found.values)));
        Json::Object(fields)
    })
}

/// The block that begins in another way, or how many do and the first of them.
fn in_blocks<T>(blocks: u32, found: &Found<T>, [one, many]: [&str; 2], values: &str) -> String {
    let first = count(found.first);
    if found.count == 1 {
        return format!("block {first} begins {one} {values}");
    }
    let (found, blocks) = (count(found.count), count(blocks));
    format!("{found} of {blocks} blocks begin {many}; the first is block {first}, {one} {values}")
}

fn in_samples(total: u32, found: &Found<i16>) -> String {
    let (differing, first) = (count(found.count), count(found.first));
    let (total, values) = (count(total), numbers(found.values));
    format!("{differing} of {total} samples; the first is sample {first}, {values}")
}

/// Two numbers.
fn numbers<N: Into<i128>>(values: [N; 2]) -> String {
    values.map(count).join(" and ")
}

/// Two pairs of samples or coefficients; without commas after three digits, since commas part them.
fn pairs(values: &[[i16; 2]; 2]) -> String {
    values.map(|[one, other]| format!("{one}, {other}")).join(" and ")
}

/// Two headers, as they are stored.
fn headers(values: [u16; 2]) -> String {
    values.map(|header| format!("{header:02x}")).join(" and ")
}

fn looped(points: Option<Loop>) -> String {
    points.map_or("no loop".into(), |points| format!("loop {}", loops::words(points)))
}

fn points<'a>(points: Option<Loop>) -> Json<'a> {
    points.map_or(Json::Null, |Loop { start, end }| {
        Json::Object(vec![("start", Json::Whole(start.into())), ("end", Json::Whole(end.into()))])
    })
}

fn lists<'a>(values: &[[i16; 2]; 2]) -> Json<'a> {
    Json::list(values.map(Json::numbers))
}
