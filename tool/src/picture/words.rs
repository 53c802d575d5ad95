//! What the picture says in words.

use super::layout::{LEFT, LINE, WORDS};
use super::seen::{Distance, Seen, bound};
use super::svg::{Anchor, Svg};
use crate::loops::{self, Looped};
use crate::text::clip_length;
use std::io;

/// A number with its digits in threes.
pub fn number(value: impl Into<i64>) -> String {
    let value = value.into();
    let digits = value.unsigned_abs().to_string();
    let mut text = String::from(if value < 0 { "−" } else { "" });
    for (i, digit) in digits.chars().enumerate() {
        if i > 0 && (digits.len() - i) % 3 == 0 {
            text.push(',');
        }
        text.push(digit);
    }
    text
}

/// A share in whole percent.
pub fn percent(some: u32, all: u32) -> String {
    match (some, (200 * u64::from(some) / u64::from(all)).div_ceil(2)) {
        (1.., 0) => "<1%".into(),
        (_, share) => format!("{share}%"),
    }
}

/// A count of things by their name.
fn count(value: u32, name: &str) -> String {
    let plural = if value == 1 { "" } else { "s" };
    format!("{} {name}{plural}", number(value))
}

/// What the head says.
pub fn summary(seen: &Seen) -> String {
    let head = &seen.head;
    format!(
        "{}; {}, {} of up to {} bytes; gain {}.",
        clip_length(head.total, head.rate),
        count(seen.frames, "frame"),
        count(head.blocks, "block"),
        number(head.block),
        number(head.gain)
    )
}

/// The largest jump, and whether the blocks fit each other.
fn marks(seen: &Seen) -> String {
    let jump = match seen.jump {
        None => "One sample.".into(),
        Some(jump) if jump.size == 0 => "All samples are equal.".into(),
        Some(jump) => {
            let (from, to) = (number(jump.at - 1), number(jump.at));
            format!("Largest jump: {}, from sample {from} to {to}.{}", number(jump.size), odd(seen))
        }
    };
    let edges = seen.head.blocks - 1;
    let seams = match seen.seams.largest {
        _ if edges == 0 => String::new(),
        None => {
            format!("No click at {}: each entry's history is what was played.", edge_count(edges))
        }
        Some(largest) => format!(
            "At {} of {} the entry's history is not what was played, most by {} at sample {}.",
            number(seen.seams.count),
            edge_count(edges),
            number(largest.size),
            number(largest.at)
        ),
    };
    format!("{jump} {seams}")
}

/// Whether a jump stands out.
fn odd(seen: &Seen) -> String {
    let from = if seen.distance.is_some() { "the recording" } else { "what is around it" };
    match seen.odd {
        None => String::new(),
        odd if odd == seen.jump => format!(" It stands out from {from}."),
        Some(odd) => {
            let (size, at) = (number(odd.size), number(odd.at));
            format!(" That of {size} at sample {at} stands out from {from}.")
        }
    }
}

fn edge_count(edges: u32) -> String {
    count(edges, "block edge")
}

/// Where the loop is, and whether it clicks.
fn looped(looped: &Looped, rate: u32) -> String {
    let click = match looped.off() {
        None => String::new(),
        Some(off) => {
            format!(" Its stored history is not what was played before it, by {}.", number(off))
        }
    };
    format!("Loop {}.{click}", loops::long_words(looped.points, rate))
}

/// How far the samples are from the reference.
fn distance(distance: &Distance, total: u32) -> String {
    let Some(largest) = distance.largest else { return "The recording has no sample.".into() };
    if largest.size == 0 {
        return format!("Equal to the recording.{}", lengths(distance, total));
    }
    let bound = match bound(distance.exponent) {
        None => "no bound".into(),
        Some(bound) => format!("bound {}", number(bound)),
    };
    format!(
        "Largest distance from the recording: {} at sample {} (exponent {}, {bound}).{}",
        number(largest.size),
        number(largest.at),
        distance.exponent,
        lengths(distance, total)
    )
}

/// Said where the reference is longer or shorter.
fn lengths(distance: &Distance, total: u32) -> String {
    match distance.reference_len {
        len if len == total as usize => String::new(),
        len => format!(" The recording has {} samples.", number(len as i64)),
    }
}

/// What is not drawn one by one.
fn gathered(seen: &Seen) -> String {
    let mut text = String::new();
    if seen.gathered() {
        let samples = seen.head.total.div_ceil(seen.columns.len() as u32);
        text += &format!("A column has up to {}.", count(samples, "sample"));
    }
    if seen.frames as usize > seen.cells.len() {
        text += " Exponents and predictors: the stronger, the more of the column's frames.";
    }
    let step = seen.edges().1;
    if step > 1 {
        let ending = if step == 2 { "nd" } else { "th" };
        text += &format!(" Drawn: every {}{ending} block edge.", number(step));
    }
    text
}

/// The lines above the panels, below the title.
pub fn lines(seen: &Seen) -> Vec<String> {
    let distance = seen.distance.as_ref().map(|d| distance(d, seen.head.total));
    let looped = seen.looped.map(|points| looped(&points, seen.head.rate)).unwrap_or_default();
    let distance = distance.unwrap_or_default();
    let lines = [summary(seen), marks(seen), looped, distance, gathered(seen)];
    let lines = lines.into_iter().map(|line| line.trim().to_string());
    lines.filter(|line| !line.is_empty()).collect()
}

/// The name of the file, and the lines.
pub fn heading(svg: &mut Svg, name: &str, lines: &[String]) -> io::Result<()> {
    let bold = r##"fill="#1c1c1c" font-size="15" font-weight="bold""##;
    svg.styled(LEFT, 22.0, Anchor::Start, name, bold)?;
    for (i, line) in lines.iter().enumerate() {
        svg.text(LEFT, WORDS + LINE * i as f64, Anchor::Start, line)?;
    }
    Ok(())
}
