//! Which samples stay.

use crate::args::Args;
use crate::failure::Failure;
use crate::place::Place;
use crate::text::{count, counted, shown};
use doilycairn::{Head, Loop};

/// Samples from the one up to the other, without that.
#[derive(Clone, Copy, Debug, PartialEq, Eq)]
pub struct Part {
    pub from: u32,
    pub to: u32,
}

impl Part {
    /// The options, for an image.
    pub fn of(args: &Args, name: &str, head: &Head) -> Result<Self, Failure> {
        let to = place(args, "--to", head)?.unwrap_or(u64::from(head.total));
        let from = place(args, "--from", head)?.unwrap_or(0);
        let has = counted(head.total, "sample", "samples");
        if to > head.total.into() {
            return Err(Failure::usage(format!("--to is sample {}: {name} has {has}", count(to))));
        }
        if from >= to {
            return Err(Failure::usage(format!(
                "--from is sample {} and --to is {}: none stays of {has}",
                count(from),
                count(to)
            )));
        }
        Ok(Self { from: from as u32, to: to as u32 })
    }

    /// Where a loop is in the part, where the part has all of it.
    pub fn shifted(&self, points: Loop) -> Option<Loop> {
        let start = points.start.checked_sub(self.from)?;
        (points.end <= self.to).then(|| Loop { start, end: points.end - self.from })
    }
}

/// The value of an option as a sample.
fn place(args: &Args, name: &str, head: &Head) -> Result<Option<u64>, Failure> {
    let Some(value) = args.value(name) else { return Ok(None) };
    let place = value.to_str().and_then(Place::of);
    place.map(|place| Some(place.sample(head.rate))).ok_or_else(|| {
        let value = shown(value);
        Failure::usage(format!(
            "{name}: '{value}' is no sample's number and no time (12.5s or 1:02.5)"
        ))
    })
}

#[cfg(test)]
mod tests {
    use super::*;

    #[test]
    fn a_loop_moves_with_the_part_that_has_it() {
        let points = |start, end| Loop { start, end };
        let part = Part { from: 14, to: 50 };
        assert_eq!(part.shifted(points(14, 50)), Some(points(0, 36)));
        assert_eq!(part.shifted(points(20, 21)), Some(points(6, 7)));
        for (start, end) in [(13, 50), (14, 51), (0, 14), (50, 60), (0, 100)] {
            assert_eq!(part.shifted(points(start, end)), None, "{start} {end}");
        }
    }
}
