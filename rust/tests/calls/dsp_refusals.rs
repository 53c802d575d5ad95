//! What export and import refuse, by which number, in the documents' sequence and with nothing written.

use crate::clips::{encode, encode_from, start_of, tone, with_loop};
use crate::dsp::exported;
use crate::dsp_fields::{file, refused, with};
use crate::made::Made;
use doilycairn::*;

/// A refused call leaves a buffer as it was.
fn untouched(
    len: usize,
    call: impl FnOnce(&mut [u8]) -> Result<usize, Refusal>,
) -> Option<Refusal> {
    let mut buffer = vec![0x5a; len];
    let why = call(&mut buffer).err();
    assert!(why.is_none() || buffer.iter().all(|byte| *byte == 0x5a));
    why
}

// ---- import

#[test]
fn number_25() {
    for whole in [file(None), file(Some((5, 17)))] {
        for length in 0..whole.len() {
            assert_eq!(refused(&whole[..length], 8), Some(Refusal::FileTooShort), "{length}");
        }
        assert_eq!(refused(&whole, 8), None);
    }
    // Odd counts need a whole byte for their last nibble.
    for total in 1..60 {
        let whole = exported(&encode(&tone(total), 16));
        assert_eq!(refused(&whole[..whole.len() - 1], 16), Some(Refusal::FileTooShort));
    }
}

/// A file of zeros, of so many bytes, that says to have so many samples.
fn zeros(len: usize, total: u32) -> Vec<u8> {
    with(&vec![0; len], 0, &total.to_be_bytes())
}

#[test]
fn number_25_before_4() {
    assert_eq!(refused(&zeros(95, 0), 8), Some(Refusal::FileTooShort));
    assert_eq!(refused(&zeros(96, 0), 8), Some(Refusal::BadSampleCount));
    for total in [MAX_SAMPLES + 1, 1 << 31, u32::MAX] {
        assert_eq!(refused(&zeros(96, total), 8), Some(Refusal::FileTooShort));
    }
    let enough = 96 + 8_388_610;
    assert_eq!(refused(&zeros(enough, MAX_SAMPLES + 1), 8), Some(Refusal::BadSampleCount));
    assert_eq!(refused(&zeros(enough - 1, MAX_SAMPLES + 1), 8), Some(Refusal::FileTooShort));
    assert_eq!(refused(&zeros(enough, u32::MAX), 8), Some(Refusal::FileTooShort));
}

/// Everything wrong at once, and mended in turn.
#[test]
fn import_tests_in_sequence() {
    let whole = file(Some((5, 17)));
    let mut bytes = whole.clone();
    bytes[..4].fill(0);
    bytes[8..12].fill(0);
    bytes[24..28].fill(0);
    bytes[28..32].copy_from_slice(&[0x80, 0, 0x80, 0]);
    let number = |bytes: &[u8], block_size, room| {
        untouched(room, |image| from_dsp_into(bytes, block_size, image)).map(Refusal::number)
    };
    assert_eq!(number(&bytes[..95], 7, 0), Some(25));
    assert_eq!(number(&bytes, 7, 0), Some(4));
    bytes[..4].copy_from_slice(&whole[..4]);
    assert_eq!(number(&bytes[..107], 7, 0), Some(25));
    assert_eq!(number(&bytes, 7, 0), Some(5));
    bytes[8..12].copy_from_slice(&whole[8..12]);
    for block_size in [0, 7, 65_537, u32::MAX] {
        assert_eq!(number(&bytes, block_size, 0), Some(6));
    }
    assert_eq!(number(&bytes, 8, 0), Some(26));
    bytes[27] = 2;
    assert_eq!(number(&bytes, 8, 0), Some(13));
    bytes[28..32].copy_from_slice(&whole[28..32]);
    for room in [0, 56, 115] {
        assert_eq!(number(&bytes, 8, room), Some(8));
    }
    assert_eq!(number(&bytes, 8, 116), None);
    assert_eq!(number(&bytes, 16, 100), None);
}

#[test]
fn number_13_of_every_pair() {
    for pair in 0..8 {
        let bytes = with(&file(None), 28 + 4 * pair, &[0x80, 0, 0x80, 0]);
        assert_eq!(refused(&bytes, 8), Some(Refusal::LowestPair));
        let almost = with(&bytes, 28 + 4 * pair, &[0x80, 1]);
        assert_eq!(refused(&almost, 8), None);
    }
}

/// Coefficients that no clip is started with.
#[test]
fn number_7_is_not_asked() {
    let bytes = with(&file(None), 28, &[0x7f, 0xff, 0x80, 0]);
    assert_eq!(refused(&bytes, 8), None);
}

#[test]
fn number_8_asks_for_the_loops_entry() {
    for (whole, size) in [(file(None), 100), (file(Some((5, 17))), 116)] {
        for room in 0..size {
            let why = untouched(room, |image| from_dsp_into(&whole, 8, image));
            assert_eq!(why, Some(Refusal::ImageTooShort));
        }
        assert_eq!(dsp_image_size(&whole, 8), Ok(size));
        assert_eq!(untouched(size, |image| from_dsp_into(&whole, 8, image)), None);
    }
}

// ---- export

/// Four blocks of silence.
fn blocks() -> Made {
    Made::silent(50, 8)
}

fn export(made: &Made, room: usize) -> Option<Refusal> {
    let bytes = made.bytes();
    let image = Image::open(&bytes).unwrap();
    let why = untouched(room, |out| image.to_dsp_into(out));
    assert_eq!(image.to_dsp().err(), why.filter(|why| *why != Refusal::OutputTooShort));
    why
}

#[test]
fn number_35_names_the_first_block() {
    for (k, sample) in (1..4).flat_map(|k| [(k, 0), (k, 1)]) {
        for other in [1, -1, i16::MIN, i16::MAX] {
            let made = blocks().but(|made| made.histories[k][sample] = other);
            let why = Some(Refusal::OtherHistory { block: k as u32 });
            assert_eq!((export(&made, 0), export(&made, 500)), (why, why));
            // Silence leaves zeros, and its last block nothing that is asked.
            let later = made.but(|made| made.histories[3] = [7, 7]);
            assert_eq!(export(&later, 500), why);
        }
    }
}

/// A block is played from its own entry: what comes before it does not count.
#[test]
fn each_block_is_asked_against_the_one_before() {
    // Every sample is the one before it.
    let holding = blocks().but(|made| made.coefficients[0] = 2048);
    let from = |history: [i16; 2], k: usize| {
        holding.but(|made| made.histories[k..].iter_mut().for_each(|h| *h = history))
    };
    assert_eq!(export(&from([9, 9], 0), 500), None);
    for k in 1..4 {
        let why = Some(Refusal::OtherHistory { block: k as u32 });
        assert_eq!(export(&from([9, 9], k), 500), why);
    }
}

#[test]
fn block_0_and_the_loop_may_have_any_history() {
    for history in [[1, 2], [i16::MIN, i16::MAX]] {
        let made = blocks().but(|made| {
            made.histories[0] = history;
            made.looped = Some((20, 30, history));
        });
        assert_eq!(export(&made, 500), None);
    }
}

#[test]
fn number_35_after_13_and_before_14() {
    let other = blocks().but(|made| made.histories[2][0] = 1);
    let lowest = other.but(|made| made.coefficients[6..8].fill(i16::MIN));
    assert_eq!(export(&lowest, 0), Some(Refusal::LowestPair));
    assert_eq!(export(&other, 0), Some(Refusal::OtherHistory { block: 2 }));
    for room in 0..125 {
        assert_eq!(export(&blocks(), room), Some(Refusal::OutputTooShort));
    }
    assert_eq!(export(&blocks(), 125), None);
}

#[test]
fn an_image_of_one_block_has_no_other() {
    for history in [[0, 0], [5, -5]] {
        let made = Made::silent(50, 32).but(|made| made.histories[0] = history);
        assert_eq!(export(&made, 125), None);
    }
}

/// Joined clips go on from each other only where the second was encoded to.
#[test]
fn a_closed_image_is_never_refused() {
    let clip = tone(300);
    for block_size in [8, 16, 40, 8192] {
        for looped in [(0, 300), (13, 14), (299, 300)] {
            let start = with_loop(start_of(&clip, block_size), looped);
            let bytes = encode_from(&start, &clip);
            assert!(Image::open(&bytes).unwrap().to_dsp().is_ok());
        }
    }
}
