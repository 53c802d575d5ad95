//! The loop of a clip: where it is, and whether a turn goes on from what is played before it.

use crate::json::{Fields, Json};
use crate::seams::off;
use crate::text::{count, counted, duration};
use doilycairn::{FrameContext, Image, Loop, Refusal};

/// Where a loop is, as numbers that the library has not tested yet.
#[derive(Clone, Copy, Debug, PartialEq, Eq)]
pub struct Span {
    pub start: u64,
    pub end: u64,
}

impl Span {
    /// For the library. What 32 bits do not hold is no clip's either, and counts as the largest number that they do.
    pub fn points(self) -> Loop {
        let [start, end] = [self.start, self.end].map(|at| u32::try_from(at).unwrap_or(u32::MAX));
        Loop { start, end }
    }

    pub fn words(self) -> String {
        format!("from sample {} up to {}", count(self.start), count(self.end))
    }
}

impl From<Loop> for Span {
    fn from(points: Loop) -> Self {
        Self { start: points.start.into(), end: points.end.into() }
    }
}

/// Where a loop is, in words.
pub fn words(points: Loop) -> String {
    Span::from(points).words()
}

/// The same after other words; nothing where there is no loop.
pub fn after(points: Option<Loop>) -> String {
    points.map(|points| format!("; loop {}", words(points))).unwrap_or_default()
}

/// Where a loop is, with its times and its length.
pub fn long_words(points: Loop, rate: u32) -> String {
    let Loop { start, end } = points;
    let time = |samples: u32| duration(samples.into(), rate);
    format!(
        "from sample {} ({}) up to {} ({}): {} ({})",
        count(start),
        time(start),
        count(end),
        time(end),
        counted(end - start, "sample", "samples"),
        time(end - start)
    )
}

/// Where a loop is; null where there is none.
pub fn json<'a>(points: Option<Loop>, rate: u32) -> Json<'a> {
    points.map_or(Json::Null, |points| Json::Object(fields(points, rate)))
}

fn fields<'a>(points: Loop, rate: u32) -> Fields<'a> {
    let seconds = |samples: u32| Json::Real(f64::from(samples) / f64::from(rate));
    vec![
        ("start", Json::Whole(points.start.into())),
        ("end", Json::Whole(points.end.into())),
        ("samples", Json::Whole((points.end - points.start).into())),
        ("start_seconds", seconds(points.start)),
        ("end_seconds", seconds(points.end)),
    ]
}

/// The loop of an image, with what it is played from.
#[derive(Clone, Copy, Debug, PartialEq, Eq)]
pub struct Looped {
    pub points: Loop,
    /// What each turn begins from, as it is stored.
    pub context: FrameContext,
    /// The two samples that are played before its start, the newest first; none where the clip does not play.
    pub played: Option<[i16; 2]>,
}

impl Looped {
    pub fn of(image: &Image) -> Option<Self> {
        let (points, context) = image.looped().zip(image.loop_context())?;
        Some(Self { points, context, played: before(image, points.start).ok() })
    }

    /// By how much the stored history is not what is played: where it is not, a click may be heard.
    pub fn off(&self) -> Option<u16> {
        self.played.map(|played| off(self.context.last_samples, played)).filter(|off| *off > 0)
    }

    /// What is said of a click.
    pub fn click(&self) -> Option<String> {
        let [newest, older] = self.played.filter(|_| self.off().is_some())?;
        let stored = self.context.last_samples;
        Some(format!(
            "the loop's stored history is not what is played before its start, sample {}, and a click may be heard: \
             {},{} and not {newest},{older}",
            count(self.points.start),
            stored[0],
            stored[1]
        ))
    }

    pub fn json<'a>(&self, rate: u32) -> Json<'a> {
        let mut fields = fields(self.points, rate);
        fields.extend([
            ("predictor_and_scale", Json::Whole(self.context.predictor_and_scale.into())),
            ("history", Json::numbers(self.context.last_samples)),
            ("played", self.played.map_or(Json::Null, Json::numbers)),
            ("click", Json::Bool(self.off().is_some())),
        ]);
        Json::Object(fields)
    }
}

/// The two samples that are played before one, the newest first; those before the clip where there are too few.
fn before(image: &Image, sample: u32) -> Result<[i16; 2], Refusal> {
    let first = sample.saturating_sub(2);
    let mut played = [0; 2];
    let played = &mut played[..(sample - first) as usize];
    image.play_from(first, played)?;
    let start = image.blocks().next().map_or([0; 2], |block| block.context.last_samples);
    Ok(played.iter().fold(start, |[newest, _], sample| [*sample, newest]))
}

#[cfg(test)]
mod tests {
    use super::*;

    #[test]
    fn numbers_that_no_clip_has_are_kept_in_words() {
        let span = Span { start: 5, end: 1 << 32 };
        assert_eq!(span.points(), Loop { start: 5, end: u32::MAX });
        assert_eq!(span.words(), "from sample 5 up to 4,294,967,296");
        assert_eq!(Span::from(Loop { start: 5, end: 17 }), Span { start: 5, end: 17 });
    }

    #[test]
    fn times_and_length() {
        assert_eq!(
            long_words(Loop { start: 8, end: 16_000 }, 8000),
            "from sample 8 (1.0 ms) up to 16,000 (2.000 s): 15,992 samples (1.999 s)"
        );
        assert_eq!(
            long_words(Loop { start: 0, end: 1 }, 8000),
            "from sample 0 (0.0 ms) up to 1 (0.1 ms): 1 sample (0.1 ms)"
        );
    }
}
