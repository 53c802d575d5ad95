//! .dsp files, through C and through the crate: the fixed list, the longest ones, and random files and images, in and out.

use crate::c_calls::{compare_play, shown};
use crate::c_files::{
    compare_call, compare_export, compare_import, compare_room, compare_size, export_dsp,
    import_dsp,
};
use crate::encoding::{encode_in, random_start};
use crate::ffi;
use crate::long_files::long_files;
use crate::tally::Tally;
use clip_list::random_samples;
use dsp_list::{
    Case, HEADER, Machine, Step, as_one_block, cases, damaged, export, file_of, import,
    put_any_bytes, random_room, random_size, with_bytes_behind, with_other_history,
};
use image_list::reader::{long, open};
use image_list::{Clip, block_count, damaged as damaged_image, put_any_histories};
use oracle::random::Random;

/// The calls of the fixed list, and the longest files.
pub fn fixed(tally: &mut Tally) {
    cases().iter().for_each(|case| replay(case, tally));
    long_files(tally);
}

/// The calls of a case, on the sources that the judge leaves.
fn replay(case: &Case, tally: &mut Tally) {
    let mut machine = Machine::default();
    for step in &case.0 {
        if let Step::Call { call, len, .. } = step {
            compare_call(*call, &machine.source[..*len], tally);
        }
        machine.take(step);
    }
}

/// A file, four damaged ones, an image of the library, two with another history and two that are damaged.
pub fn random(random: &mut Random, tally: &mut Tally) {
    let clip = clip(random);
    let file = file(random, &clip);
    compare_file(random, &file, tally);
    for _ in 0..4 {
        let damaged = damaged(random, &file);
        compare_file(random, &damaged, tally);
    }
    let image = compare_image(random, &clip, tally);
    for _ in 0..2 {
        let other = with_other_history(random, &image);
        compare_exported(random, &other, tally);
        let other = damaged_image(random, &image);
        compare_exported(random, &other, tally);
    }
}

/// A clip, half of the time with a loop; one in 200 is of a few thousand samples.
fn clip(random: &mut Random) -> Clip {
    let samples = match random.below(200) {
        0 => {
            let len = 1000 + random.below(3000);
            random.tone(len)
        }
        _ => random_samples(random),
    };
    Clip { start: random_start(random, &samples), samples }
}

/// The file of a clip, a third of the time with any bytes; sometimes with bytes behind it.
fn file(random: &mut Random, clip: &Clip) -> Vec<u8> {
    let mut file = file_of(clip);
    if random.below(3) == 0 {
        put_any_bytes(random, &mut file);
    }
    let behind = random.below_one(&[1, 1, 40]);
    with_bytes_behind(random, &file, behind)
}

/// Imports a file at two block sizes, and where it is accepted plays its image and exports it again.
fn compare_file(random: &mut Random, file: &[u8], tally: &mut Tally) {
    compare_size(file.get(..4).map_or(0, |_| long(file, 0)), tally);
    for _ in 0..2 {
        let size = random_size(random);
        let needed = import(file, size).map_or(200, |image| image.len());
        compare_room(file, size, tally);
        let room = random_room(random, needed);
        if let Some(image) = compare_import(file, size, room, tally) {
            compare_accepted(random, file, &image, tally);
        }
    }
}

/// What holds of an accepted file and its image.
pub fn compare_accepted(random: &mut Random, file: &[u8], image: &[u8], tally: &mut Tally) {
    let right = as_one_block(file);
    let mut out = vec![0; right.len()];
    let played = ffi::play_all(image, &mut out);
    tally.compare("as one block", &shown(file), (played.code, out), (0, right));
    let k = random.below(block_count(image)) as u32;
    compare_play(image, &open(image), k, long(image, 12) as usize * 2, tally);
    let exported = compare_export(image, file.len(), tally);
    let whole = exported.as_ref().map_or(0, Vec::len);
    let is_back = exported.as_deref() == Some(&file[..whole]) && whole > HEADER;
    tally.compare("file returns", &shown(file), is_back, true);
}

/// The library's image of a clip, exported and imported again; gives it.
fn compare_image(random: &mut Random, clip: &Clip, tally: &mut Tally) -> Vec<u8> {
    let mut image = vec![0; clip.start.image_size() as usize];
    let pieces = random.cut(&clip.samples);
    encode_in(&clip.start, &pieces, &mut image).expect("a clip that starting accepts");
    compare_returns(&image, clip.start.size, tally);
    let room = random_room(random, HEADER + clip.samples.len());
    compare_export(&image, room, tally);
    image
}

/// The library's own answers: an image comes back from its file at its block size.
pub fn compare_returns(image: &[u8], size: u32, tally: &mut Tally) {
    let mut file = vec![0; image.len() + HEADER];
    let written = export_dsp(image, &mut file);
    file.truncate(written.bytes as usize);
    let mut back = vec![0x5a; image.len()];
    let read = import_dsp(&file, size, &mut back);
    let codes = [written.code, read.code];
    tally.compare("image returns", &shown(image), (codes, back), ([0; 2], image.to_vec()));
}

/// Exports an image, of which any histories may stand in its entries, and imports its file where it is accepted.
fn compare_exported(random: &mut Random, image: &[u8], tally: &mut Tally) {
    let mut image = image.to_vec();
    if random.below(16) == 0 && open(&image).is_ok() {
        put_any_histories(random, &mut image);
    }
    image.resize(image.len() + random.below_one(&[1, 20]), 0x5a);
    let needed = export(&image).map_or(200, |file| file.len());
    let room = random_room(random, needed);
    if let Some(file) = compare_export(&image, room, tally) {
        let size = long(&image, 12);
        let back = compare_import(&file, size, image.len(), tally);
        let is_back = back.is_some_and(|back| image.starts_with(&back));
        tally.compare("accepted image returns", &shown(&image), is_back, true);
    }
}
