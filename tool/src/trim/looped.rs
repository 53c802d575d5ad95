//! What becomes of a loop.

use super::part::Part;
use crate::args::Args;
use crate::console::Console;
use crate::input::ImageFile;
use crate::loops::{self, Looped};
use doilycairn::Image;

/// The loop that the part has: IN's, where all of it is within the part and it is not to be dropped.
pub fn stays(
    args: &Args,
    file: &ImageFile,
    image: &Image,
    part: &Part,
    console: &Console,
) -> Option<Looped> {
    let looped = Looped::of(image).filter(|_| !args.has("--drop-loop"))?;
    let shifted = part.shifted(looped.points);
    if shifted.is_none() {
        let (name, words) = (&file.name, loops::words(looped.points));
        console.note(format!("{name}: its loop, {words}, is not within the part and is left out"));
    }
    shifted.map(|points| Looped { points, ..looped })
}

/// Why its turns would not play as they do where blocks begin elsewhere: from its start to the end of a block they are not the clip's samples.
pub fn obstacle(looped: &Looped) -> Option<String> {
    let words = "the loop's stored history is not what is played before its start, and blocks would begin elsewhere";
    looped.off().map(|_| words.into())
}
