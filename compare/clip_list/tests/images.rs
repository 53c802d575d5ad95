//! Refusals leave no trace, cuts change no image, and images are those of the samples.

use clip_list::{Case, Machine, Start, State, Step, cases, image_of, image_size, random_clip};
use oracle::list::Listed;
use oracle::random::Random;
use oracle::{FrameContext, address_to_sample, decode, encode};

/// The clips of the fixed list, and some random ones.
fn clips() -> Vec<Case> {
    let mut random = Random::new(11);
    cases().into_iter().chain((0..500).map(|_| random_clip(&mut random))).collect()
}

#[test]
fn a_refused_call_changes_nothing() {
    for case in clips() {
        let mut machine = Machine::default();
        for step in &case.0 {
            let (state, image) = (machine.state.clone(), machine.image.clone());
            if machine.take(step) != 0 {
                let is_start = matches!(step, Step::Start { .. });
                assert_eq!(machine.state, if is_start { State::default() } else { state });
                assert_eq!(machine.image, image);
            }
        }
    }
}

#[test]
fn bytes_after_the_image_are_kept() {
    for case in clips() {
        let mut machine = Machine::default();
        for step in &case.0 {
            let image = machine.image.clone();
            if machine.take(step) == 0 && step.lent().is_some() {
                let size = machine.state.image_size() as usize;
                assert_eq!(machine.image[size..], image[size..]);
            }
        }
    }
}

/// A clip that was started and closed, with no state put in between, and the whole buffer at its end.
struct Closed {
    start: Start,
    pieces: Vec<Vec<i16>>,
    buffer: Vec<u8>,
}

/// The closed clips of a case.
fn closed(case: &Case) -> Vec<Closed> {
    let (mut machine, mut clip, mut closed) = (Machine::default(), None, vec![]);
    for step in &case.0 {
        let is_accepted = machine.take(step) == 0;
        match step {
            Step::New | Step::Put(_) => clip = None,
            Step::Start { start, .. } => clip = is_accepted.then(|| (start.clone(), vec![])),
            Step::Feed { piece, .. } if is_accepted => {
                if let Some((_, pieces)) = &mut clip {
                    pieces.push(piece.clone());
                }
            }
            Step::Close { .. } if is_accepted => {
                let buffer = machine.image.clone();
                let clip = clip.take();
                closed.extend(clip.map(|(start, pieces)| Closed { start, pieces, buffer }));
            }
            _ => {}
        }
    }
    closed
}

#[test]
fn lengths_stand_around_the_edges_of_frames_and_blocks() {
    let totals: Vec<_> = cases().iter().flat_map(closed).map(|clip| clip.start.total).collect();
    for total in [1, 13, 14, 15, 27, 28, 29, 41, 42, 43, 223, 224, 225, 448, 449] {
        assert!(totals.contains(&total), "no clip of {total} samples");
    }
}

#[test]
fn a_closed_image_is_that_of_the_samples_in_one_piece() {
    let mut count = 0;
    for Closed { start, pieces, buffer } in clips().iter().flat_map(closed) {
        let whole = image_of(&start, &[&pieces.concat()]);
        assert_eq!(whole.len() as u64, start.image_size());
        assert_eq!(buffer[..whole.len()], whole);
        count += 1;
    }
    assert!(count >= 600, "{count}");
}

#[test]
fn the_state_after_closing_is_the_rusts() {
    let mut count = 0;
    for case in clips() {
        let mut machine = Machine::default();
        let last = case.0.iter().map(|step| machine.take(step)).last();
        let [Closed { start, pieces, .. }] = &closed(&case)[..] else { continue };
        if last != Some(0) {
            continue;
        }
        let pieces: Vec<&[i16]> = pieces.iter().map(Vec::as_slice).collect();
        let Start { rate, size, gain, ref coefficients, history, .. } = *start;
        let encoded = encode(&pieces, rate, size as usize, coefficients, gain, history).unwrap();
        let State { passes, history, frame, closed, .. } = machine.state;
        assert_eq!((u64::from(passes), history), (encoded.passes, encoded.history));
        assert!(closed && frame == [0; 14]);
        count += 1;
    }
    assert!(count >= 500, "{count}");
}

/// The number of some bytes of a buffer.
fn field(buffer: &[u8], place: usize, len: usize) -> usize {
    buffer[place..place + len].iter().fold(0, |sum, byte| sum << 8 | usize::from(*byte))
}

#[test]
fn an_images_entries_play_all_its_samples() {
    for Closed { start, buffer, .. } in cases().iter().flat_map(closed) {
        let (mut samples, mut history) = (0, start.history);
        for entry in (0..field(&buffer, 52, 4)).map(|block| 56 + 16 * block) {
            let [offset, len] = [0, 4].map(|place| field(&buffer, entry + place, 4));
            let [header, newest, older] = [8, 10, 12].map(|place| field(&buffer, entry + place, 2));
            assert_eq!((header, [newest as i16, older as i16]), (buffer[offset].into(), history));
            let context =
                FrameContext { predictor_and_scale: header as u16, last_samples: history };
            let body = &buffer[offset..offset + len.div_ceil(2)];
            let (played, after) = decode(body, len, &start.coefficients, context);
            assert_eq!(played.len(), address_to_sample(len));
            (samples, history) = (samples + played.len(), after.last_samples);
        }
        assert_eq!(samples as u32, start.total);
    }
}

#[test]
fn the_worked_image() {
    let case = &cases()[0];
    let answers = case.answers();
    let image = answers.trim_end().rsplit(' ').next().unwrap();
    let zeros = "00".repeat(36);
    let head = format!("445350430000000100007d0000000008{zeros}00000001");
    assert_eq!(image, head + "00000048000000030001000000000000" + "0140");
}

#[test]
fn the_worked_sizes() {
    let sizes = [(1, 8, 74), (14, 8, 80), (15, 8, 98), (15, 16, 82)];
    for (case, (total, block, size)) in cases()[2..6].iter().zip(sizes) {
        let Closed { start, pieces, .. } = &closed(case)[0];
        assert_eq!((start.total, start.block()), (total, block));
        assert_eq!(image_size(total, block), size);
        assert_eq!(image_of(start, &[&pieces.concat()]).len() as u64, size);
    }
}
