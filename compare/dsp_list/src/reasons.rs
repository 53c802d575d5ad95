//! Several reasons at once, of the fixed list.

use crate::case::Case;
use crate::file::{HEADER, Header};
use crate::made::file_of;
use crate::writer::Writer;
use clip_list::{Loop, Start};
use image_list::{Clip, ENTRY, HEAD, LOWEST, MARK_END, PAIRS, loop_place};
use oracle::pairs::with_pair;
use oracle::random::Random;

/// Every choice of the reasons for which import and export are refused.
pub fn reasons(random: &mut Random) -> Vec<Case> {
    let clip = Clip::new(random, 43, 16);
    let start = Start { looped: Some(Loop { start: 20, end: 40 }), ..clip.start };
    let clip = Clip { start, ..clip };
    vec![of_import(&clip), of_export(&clip)]
}

/// Whether a reason is among those of a choice; each choice differs from the one before in one of them.
fn is_among(choice: usize, reason: usize) -> bool {
    (choice ^ choice >> 1) >> reason & 1 == 1
}

/// 25, 4, 5, 6, 26, 13 and 8.
fn of_import(clip: &Clip) -> Case {
    let whole = file_of(clip);
    let mut case = Writer::new(&whole.bytes());
    let needed = case.needed_to_import(16);
    for choice in 0..128 {
        let is_bad = |reason| is_among(choice, reason);
        let (mut file, Header { total, rate, gain: _, coefficients, .. }) =
            (whole.clone(), whole.header);
        file.header.total = if is_bad(1) { 0 } else { total };
        file.header.rate = if is_bad(2) { 0 } else { rate };
        file.header.zero = is_bad(4).into();
        let lowest = with_pair(coefficients, 5, [i16::MIN; 2]);
        file.header.coefficients = if is_bad(5) { lowest } else { coefficients };
        let file = file.bytes();
        let len = match (is_bad(0), is_bad(1)) {
            (false, _) => file.len(),
            (true, false) => file.len() - 1,
            (true, true) => HEADER - 1,
        };
        let size = if is_bad(3) { 7 } else { 16 };
        case.source(&file[..len]).room(size).import(size, needed - usize::from(is_bad(6)));
    }
    case.finish()
}

/// 15, 22 of the last block, 24, 13, 35 of the second block, and 14.
fn of_export(clip: &Clip) -> Case {
    let whole = clip.image();
    let mut case = Writer::new(&whole);
    let needed = case.needed_to_export();
    let places = [MARK_END, HEAD + ENTRY * 2 + 8, loop_place(&whole) + 15];
    for choice in 0..64 {
        let is_bad = |reason| is_among(choice, reason);
        let mut image = whole.clone();
        for (reason, place) in places.into_iter().enumerate() {
            image[place] ^= u8::from(is_bad(reason));
        }
        if is_bad(3) {
            image[PAIRS..PAIRS + 4].copy_from_slice(&LOWEST);
        }
        image[HEAD + ENTRY + 13] ^= u8::from(is_bad(4));
        case.source(&image).export(needed - usize::from(is_bad(5)));
    }
    case.finish()
}
