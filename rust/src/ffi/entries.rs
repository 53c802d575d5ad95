//! The nine calls that test a table name the same entry, and beside it an answer is as a refused one; beside every other code there is no entry.

use super::*;

/// A verdict: the code, and the block whose entry is bad.
type Verdict = (u32, u32);

/// The closed image of a clip of silence, in blocks of 8 bytes, with a loop or without.
fn silent(total: u32, looped: Option<Loop>) -> Vec<u8> {
    let clip = Start {
        total,
        rate: 32_000,
        block_size: 8,
        gain: 0,
        coefficients: Coefficients([0; 16]),
        history: History::default(),
        looped,
    };
    let mut image = vec![0; clip.image_size().unwrap()];
    let started = start(&clip, &mut image).encoder;
    let fed = feed(started, &vec![0; total as usize], &mut image).encoder;
    assert_eq!(close(fed, &mut image).code, 0);
    image
}

fn silence(total: u32) -> Vec<u8> {
    silent(total, None)
}

/// Fifteen samples with a loop in the last of them: the loop's entry stands at 88, bodies at 104 and 112.
fn looped_silence() -> Vec<u8> {
    silent(15, Some(Loop { start: 14, end: 15 }))
}

/// The image with the lowest bit of each of these bytes turned over.
fn altered(image: &[u8], places: &[usize]) -> Vec<u8> {
    let mut damaged = image.to_vec();
    for &place in places {
        damaged[place] ^= 1;
    }
    damaged
}

fn opening_says(image: &[u8]) -> Verdict {
    let Opening { code, entry, head, looped, loop_context } = open(image);
    if code != 0 {
        let coefficients = Coefficients([0; 16]);
        let none = Head { total: 0, rate: 0, block: 0, gain: 0, coefficients, blocks: 0 };
        assert_eq!(head, none);
        assert_eq!((looped, loop_context), (LoopState::default(), FrameContext::default()));
    }
    (code, entry)
}

fn body_says(image: &[u8], k: u32) -> Verdict {
    let Body { code, entry, offset, bytes, nibbles, context } = block_body(image, k);
    if code != 0 {
        assert_eq!((offset, bytes, nibbles, context), (0, 0, 0, FrameContext::default()));
    }
    (code, entry)
}

/// What playing with this room says: a refused call writes nothing.
fn playback_says(room: usize, call: impl FnOnce(&mut [i16]) -> Playback) -> Verdict {
    let mut out = vec![0x5a5a; room];
    let Playback { code, entry, samples, context } = call(&mut out);
    if code != 0 {
        assert_eq!((samples, context), (0, FrameContext::default()));
        assert!(out.iter().all(|sample| *sample == 0x5a5a));
    }
    (code, entry)
}

/// What playing a part says: a refused call writes nothing.
fn part_says(image: &[u8], first: u32, room: usize) -> Verdict {
    let mut out = vec![0x5a5a; room];
    let Part { code, entry, samples, blocks } = play_from(image, first, &mut out);
    if code != 0 {
        assert_eq!((samples, blocks), (0, 0));
        assert!(out.iter().all(|sample| *sample == 0x5a5a));
    }
    (code, entry)
}

/// What playing the loop says: a refused call writes nothing.
fn turns_say(image: &[u8], times: u32, room: usize) -> Verdict {
    let mut out = vec![0x5a5a; room];
    let Turns { code, entry, samples } = play_loop(image, times, &mut out);
    if code != 0 {
        assert_eq!(samples, 0);
        assert!(out.iter().all(|sample| *sample == 0x5a5a));
    }
    (code, entry)
}

/// What exporting with this room says: a refused call writes nothing.
fn export_says(image: &[u8], room: usize) -> Verdict {
    let mut out = vec![0x5a; room];
    let Written { code, entry, bytes } = export_dsp(image, &mut out);
    if code != 0 {
        assert_eq!(bytes, 0);
        assert!(out.iter().all(|byte| *byte == 0x5a));
    }
    (code, entry)
}

/// What comparing says, and comparing the sound too: they are refused alike.
fn comparison_says(first: &[u8], second: &[u8]) -> Verdict {
    let [verdict, by_sound] = [same(first, second), sounds_same(first, second)].map(|comparison| {
        let Comparison { code, entry, same } = comparison;
        assert!(code == 0 || !same);
        (code, entry)
    });
    assert_eq!(verdict, by_sound);
    verdict
}

/// The one verdict of all calls on a damaged image, whatever else would be wrong after it: the number of the block or of the sample, the room, the
/// other image.
fn verdict(damaged: &[u8], whole: &[u8]) -> Verdict {
    let verdict = opening_says(damaged);
    assert_ne!(verdict.0, 0);
    for k in [0, 1, 2, u32::MAX] {
        assert_eq!(body_says(damaged, k), verdict);
        for room in [0, 14] {
            assert_eq!(playback_says(room, |out| play(damaged, k, out)), verdict);
        }
    }
    for room in [0, 100] {
        assert_eq!(playback_says(room, |out| play_all(damaged, out)), verdict);
        for first in [0, 14, 100, u32::MAX] {
            assert_eq!(part_says(damaged, first, room), verdict);
        }
        for times in [0, 1, u32::MAX] {
            assert_eq!(turns_say(damaged, times, room), verdict);
        }
        assert_eq!(export_says(damaged, 2 * room), verdict);
    }
    assert_eq!(comparison_says(damaged, whole), verdict);
    assert_eq!(comparison_says(whole, damaged), verdict);
    assert_eq!(comparison_says(damaged, &whole[..10]), verdict);
    assert_eq!(comparison_says(&whole[..10], damaged), (15, 0));
    verdict
}

/// Entries at 56 and 72, bodies at 88 and 96.
#[test]
fn the_worked_table() {
    let whole = silence(15);
    assert_eq!(whole.len(), 98);
    for (places, expected) in [
        (&[59][..], (20, 0)),
        (&[79], (21, 1)),
        (&[87], (21, 1)),
        (&[64], (22, 0)),
        (&[96], (22, 1)),
        (&[65, 75], (22, 0)),
        (&[71, 65], (21, 0)),
        (&[55, 59], (15, 0)),
    ] {
        assert_eq!(verdict(&altered(&whole, places), &whole), expected, "{places:?}");
    }
}

#[test]
fn every_pair_of_bytes_of_the_table() {
    let whole = silence(40);
    let table = 56..56 + 16 * 3;
    let is_tested = |place: &usize| !(10..14).contains(&((place - 56) % 16));
    let places: Vec<usize> = table.filter(is_tested).collect();
    let mut seen = std::collections::BTreeSet::new();
    for &a in &places {
        for &b in &places {
            let places = if a == b { &[a][..] } else { &[a, b] };
            seen.insert(verdict(&altered(&whole, places), &whole));
        }
    }
    let expected = [20, 21, 22].into_iter().flat_map(|code| (0..3).map(move |k| (code, k)));
    assert!(seen.into_iter().eq(expected));
}

#[test]
fn a_bad_loop_is_told_by_every_call_and_is_no_blocks() {
    let whole = looped_silence();
    assert_eq!((whole.len(), opening_says(&whole)), (114, (0, 0)));
    for places in [&[91][..], &[88], &[95], &[96], &[97], &[102], &[103], &[91, 103]] {
        assert_eq!(verdict(&altered(&whole, places), &whole), (24, 0), "{places:?}");
    }
    for (places, expected) in [
        (&[103, 51][..], (20, 0)),
        (&[103, 50], (15, 0)),
        (&[103, 59], (20, 0)),
        (&[103, 87], (21, 1)),
        (&[97, 81], (22, 1)),
        (&[112], (22, 1)),
    ] {
        assert_eq!(verdict(&altered(&whole, places), &whole), expected, "{places:?}");
    }
}

#[test]
fn the_loop_is_told_by_opening() {
    let Opening { code, looped, loop_context, .. } = open(&looped_silence());
    let expected = LoopState { start: 14, end: 15, present: true };
    assert_eq!((code, looped, loop_context), (0, expected, FrameContext::default()));
    let opening = open(&silence(15));
    assert_eq!((opening.code, opening.looped), (0, LoopState::default()));
    assert_eq!(opening.loop_context, FrameContext::default());
}

#[test]
fn beside_an_accepted_call_there_is_none() {
    let whole = silence(15);
    assert_eq!(turns_say(&whole, 1, 0), (0, 0));
    assert_eq!(turns_say(&looped_silence(), 3, 3), (0, 0));
    assert_eq!(opening_says(&whole), (0, 0));
    assert_eq!(body_says(&whole, 1), (0, 0));
    assert_eq!(playback_says(14, |out| play(&whole, 1, out)), (0, 0));
    assert_eq!(playback_says(15, |out| play_all(&whole, out)), (0, 0));
    assert_eq!(part_says(&whole, 13, 9), (0, 0));
    assert_eq!(comparison_says(&whole, &whole), (0, 0));
    assert_eq!(export_says(&whole, 106), (0, 0));
    let (coefficients, context) = (Coefficients([0; 16]), FrameContext::default());
    let bytes = |out: &mut [i16]| play_bytes(&[0; 8], 16, &coefficients, context, out);
    assert_eq!(playback_says(14, bytes), (0, 0));
}

#[test]
fn beside_13_there_is_none() {
    let whole = silence(15);
    let mut lowest = whole.clone();
    lowest[16..20].copy_from_slice(&[0x80, 0, 0x80, 0]);
    assert_eq!(playback_says(14, |out| play(&lowest, 1, out)), (13, 0));
    assert_eq!(playback_says(15, |out| play_all(&lowest, out)), (13, 0));
    assert_eq!(part_says(&lowest, 13, 9), (13, 0));
    assert_eq!(turns_say(&lowest, 0, 9), (13, 0));
    assert_eq!(export_says(&lowest, 0), (13, 0));
    assert_eq!(comparison_says(&lowest, &altered(&whole, &[79])), (13, 0));
    assert_eq!(comparison_says(&altered(&whole, &[79]), &lowest), (21, 1));
    assert_eq!(comparison_says(&whole, &lowest), (13, 0));
}

/// Everything wrong at once, and mended in turn: the head, three entries or bodies, the lowest pair, the first sample.
#[test]
fn playing_a_part_tests_in_sequence() {
    let whole = silence(15);
    for (first, room) in [0, 14, 15, 16, u32::MAX].into_iter().flat_map(|n| [(n, 0), (n, 9)]) {
        let mut image = altered(&whole, &[55, 59, 79, 96]);
        image[16..20].copy_from_slice(&[0x80, 0, 0x80, 0]);
        let mut verdicts = vec![];
        for place in [55, 59, 79, 96] {
            verdicts.push(part_says(&image, first, room));
            image[place] ^= 1;
        }
        verdicts.push(part_says(&image, first, room));
        image[16..20].copy_from_slice(&whole[16..20]);
        verdicts.push(part_says(&image, first, room));
        let last = if first < 15 { (0, 0) } else { (19, 0) };
        assert_eq!(verdicts, [(15, 0), (20, 0), (21, 1), (22, 1), (13, 0), last]);
    }
}

/// Everything wrong at once, and mended in turn: the head, entries, a body, the loop, the lowest pair, the room.
#[test]
fn playing_the_loop_tests_in_sequence() {
    let whole = looped_silence();
    for times in [0, 1, 3, u32::MAX] {
        let mut image = altered(&whole, &[55, 59, 79, 112, 103]);
        image[16..20].copy_from_slice(&[0x80, 0, 0x80, 0]);
        let mut verdicts = vec![];
        for place in [55, 59, 79, 112, 103] {
            verdicts.push(turns_say(&image, times, 0));
            image[place] ^= 1;
        }
        verdicts.push(turns_say(&image, times, 0));
        image[16..20].copy_from_slice(&whole[16..20]);
        verdicts.push(turns_say(&image, times, 0));
        let last = if times == 0 { (0, 0) } else { (14, 0) };
        assert_eq!(verdicts, [(15, 0), (20, 0), (21, 1), (22, 1), (24, 0), (13, 0), last]);
    }
}

/// Everything wrong at once, and mended in turn: the head, entries, a body, the loop, the lowest pair, a history, the room.
#[test]
fn exporting_tests_in_sequence() {
    let whole = looped_silence();
    let mut image = altered(&whole, &[55, 59, 79, 112, 103, 83]);
    image[16..20].copy_from_slice(&[0x80, 0, 0x80, 0]);
    let mut verdicts = vec![];
    for place in [55, 59, 79, 112, 103] {
        verdicts.push(export_says(&image, 0));
        image[place] ^= 1;
    }
    verdicts.push(export_says(&image, 0));
    image[16..20].copy_from_slice(&whole[16..20]);
    verdicts.push(export_says(&image, 0));
    image[83] ^= 1;
    verdicts.extend([0, 105, 106].map(|room| export_says(&image, room)));
    assert_eq!(verdicts[..5], [(15, 0), (20, 0), (21, 1), (22, 1), (24, 0)]);
    assert_eq!(verdicts[5..], [(13, 0), (35, 1), (14, 0), (14, 0), (0, 0)]);
}
