//! It does not matter how a clip is cut into pieces, nor whether calls are refused in between.

use crate::clips::{clips, encode_from, start_of};
use doilycairn::{Calculator, Encoder, Image, Measure, Refusal, Start, store_size};

/// A clip in pieces: of the lengths given in turn.
fn pieces<'a>(clip: &'a [i16], lengths: &[usize]) -> Vec<&'a [i16]> {
    let (mut rest, mut pieces) = (clip, vec![]);
    for length in lengths.iter().cycle() {
        if rest.is_empty() {
            break;
        }
        let (piece, after) = rest.split_at((*length).min(rest.len()));
        pieces.push(piece);
        rest = after;
    }
    pieces
}

const CUTS: [&[usize]; 8] =
    [&[1], &[3], &[13], &[14], &[15, 0], &[0, 0, 100], &[1, 13, 14, 15, 27, 500], &[100_000]];

#[test]
fn measuring() {
    for clip in clips() {
        let mut whole = Measure::new();
        whole.process(&clip).unwrap();
        let coefficients = whole.coefficients().unwrap();
        let records = whole.clone().into_parts().1;
        for cut in CUTS {
            let mut store = vec![0.0; store_size(clip.len() as u32)];
            let mut measure = Measure::with_store(&mut store[..]);
            for piece in pieces(&clip, cut) {
                measure.process(piece).unwrap();
                measure.coefficients().unwrap();
                let too_long = vec![0; clip.len() + 14];
                assert_eq!(measure.process(&too_long), Err(Refusal::StoreTooShort));
            }
            assert_eq!(measure.calculator(), whole.calculator());
            assert_eq!(measure.coefficients(), Ok(coefficients));
            let used = 2 * whole.calculator().records as usize;
            assert_eq!(store[..used], records[..used]);
        }
    }
}

/// Encodes a clip in each of the cuts, with refused calls in between: image and state are the same.
pub fn same_in_any_cuts(start: &Start, clip: &[i16]) {
    let image = encode_from(start, clip);
    let too_long = vec![1; clip.len() + 1];
    let mut states = vec![];
    for cut in CUTS {
        let mut encoder = Encoder::start(start).unwrap();
        for piece in pieces(clip, cut) {
            assert_eq!(Image::open(encoder.image()).unwrap_err(), Refusal::BadHead);
            if !piece.is_empty() {
                assert_eq!(encoder.close(), Err(Refusal::Unfinished));
            }
            encoder.feed(piece).unwrap();
            assert_eq!(encoder.feed(&too_long), Err(Refusal::PieceTooLong));
        }
        encoder.close().unwrap();
        assert_eq!(encoder.feed(&[]), Err(Refusal::AlreadyClosed));
        assert_eq!(encoder.close(), Err(Refusal::AlreadyClosed));
        assert_eq!(encoder.image(), image);
        states.push(encoder.state());
    }
    assert!(states.iter().all(|state| *state == states[0]));
}

#[test]
fn encoding() {
    for clip in clips() {
        for block_size in [8, 24, 4096] {
            same_in_any_cuts(&start_of(&clip, block_size), &clip);
        }
    }
}

#[test]
fn an_empty_piece_changes_nothing() {
    let fresh = Calculator::new();
    assert_eq!(fresh.process(&[], &mut []), Ok(fresh));
    assert_eq!(Measure::new().coefficients().unwrap().0, [0; 16]);
}
