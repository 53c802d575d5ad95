//! The judge itself: the worked files, and what document 02 says of files that are accepted.

use clip_list::{Loop, Start, body_size, ramp, random_samples, random_start, with_random_loop};
use dsp_list::{
    File, Header, as_one_block, damaged, export, export_to, file_of, import, import_to,
    put_any_bytes, random_size, with_other_history,
};
use image_list::Clip;
use image_list::reader::{Refused, open};
use oracle::random::Random;
use oracle::sample_to_address;

/// The digits of bytes.
fn digits(bytes: &[u8]) -> String {
    bytes.iter().map(|byte| format!("{byte:02X}")).collect()
}

/// The ramp of twenty samples in blocks of one frame.
fn ramp_clip(looped: Option<Loop>) -> Clip {
    let (start, samples) = ramp(8, looped);
    Clip { start, samples }
}

#[test]
fn the_worked_ramp() {
    let clip = ramp_clip(Some(Loop { start: 5, end: 17 }));
    let file = export(&clip.image()).unwrap();
    let begun = "00000014 00000018 00007D00 0001 0000 00000007 00000014 00000002";
    assert_eq!((file.len(), digits(&file[..28])), (108, begun.replace(' ', "")));
    let contexts = "0007 0000 03E8 03DE 0000 0400 03FA";
    assert_eq!(digits(&file[60..74]), contexts.replace(' ', ""));
    assert_eq!(
        (&file[74..96], digits(&file[96..])),
        (&[0; 22][..], "000666666666666607000000".into())
    );
    assert_eq!(import(&file, 8), Ok(clip.image()));
    let mut plain = file.clone();
    plain[12..24].fill(0);
    plain[68..74].fill(0);
    assert_eq!(export(&ramp_clip(None).image()), Ok(plain));
}

#[test]
fn the_worked_sample() {
    for looped in [None, Some(Loop { start: 0, end: 1 })] {
        let history = [0; 2];
        let (rate, size, gain, coefficients) = (32_000, 15, 0, [0; 16]);
        let start = Start { total: 1, rate, size, gain, coefficients, history, looped };
        let clip = Clip { start, samples: vec![9] };
        let file = export(&clip.image()).unwrap();
        assert_eq!((file.len(), digits(&file[..8])), (98, "0000000100000003".into()));
        assert_eq!((digits(&file[62..64]), digits(&file[96..])), ("0001".into(), "0140".into()));
        let fields = if looped.is_some() {
            "00010000 00000002 00000002"
        } else {
            "00000000 00000000 00000000"
        };
        assert_eq!(digits(&file[12..24]), fields.replace(' ', ""));
        assert_eq!(file[69], u8::from(looped.is_some()));
    }
}

#[test]
fn the_worked_counts() {
    let with_count = |total: u32, len: usize| {
        let mut file = vec![0; len];
        file[..4].copy_from_slice(&total.to_be_bytes());
        import(&file, 8).err().map_or(0, |refused| refused.code)
    };
    assert_eq!([95, 96].map(|len| with_count(0, len)), [25, 4]);
    let most = 14_680_065;
    assert_eq!([96, 8_388_705, 8_388_706].map(|len| with_count(most, len)), [25, 25, 4]);
    assert_eq!([96, 8_388_703, 8_388_704].map(|len| with_count(most - 1, len)), [25, 25, 5]);
    assert_eq!((body_size(u32::MAX), body_size(most - 1)), (2_454_267_027, 8_388_608));
    let all = 96 + 2_454_267_027;
    assert_eq!([all - 1, all].map(|len| with_count(u32::MAX, len)), [25, 4]);
}

#[test]
fn the_worked_addresses() {
    let file = file_of(&ramp_clip(Some(Loop { start: 0, end: 20 })));
    let code = |start, last| {
        let header = Header { start, last, ..file.header };
        let mut file = File { header, ..file.clone() };
        file.header.looped.predictor_and_scale = if start < 16 { 0 } else { 7 };
        import(&file.bytes(), 8).err().map_or(0, |refused| refused.code)
    };
    for address in 0..60 {
        let is_a_sample = (2..16).contains(&address) || (18..24).contains(&address);
        assert_eq!(code(address, address) == 0, is_a_sample, "{address}");
        assert_eq!(code(2, address) == 0, is_a_sample, "{address}");
    }
    assert_eq!([code(5, 4), code(18, 15), code(4, 5), code(15, 18)], [26, 26, 0, 0]);
}

#[test]
fn a_header_holds_its_fields_where_they_are_listed() {
    let mut random = Random::new(24);
    let file: Vec<u8> = (0..96).map(|_| random.bits() as u8).collect();
    let header = Header::read(&file);
    assert_eq!(header.bytes(), file);
    let words: Vec<u16> =
        (0..48).map(|i| u16::from_be_bytes([file[2 * i], file[2 * i + 1]])).collect();
    let long = |i: usize| u32::from(words[i]) << 16 | u32::from(words[i + 1]);
    let longs = [header.total, header.nibbles, header.rate, header.start, header.last, header.two];
    assert_eq!(longs, [0, 2, 4, 8, 10, 12].map(long));
    assert_eq!([header.flag, header.zero, header.gain], [6, 7, 30].map(|i| words[i]));
    assert_eq!(header.coefficients.map(|c| c as u16), words[14..30]);
    for (context, i) in [(header.first, 31), (header.looped, 34)] {
        assert_eq!(context.predictor_and_scale, words[i]);
        assert_eq!(context.last_samples.map(|sample| sample as u16), words[i + 1..i + 3]);
    }
    assert_eq!(header.rest, file[74..]);
}

#[test]
fn lengths_in_nibbles_and_bytes_are_the_last_address() {
    for total in (1..300).chain([14_680_063, 14_680_064]) {
        let nibbles = sample_to_address(total as usize - 1) + 1;
        assert_eq!(body_size(total), nibbles.div_ceil(2) as u64, "{total}");
    }
}

/// A clip, half of the time with a loop.
fn random_clip(random: &mut Random) -> Clip {
    let samples = random_samples(random);
    let start = random_start(random, &samples);
    Clip { start: with_random_loop(random, start), samples }
}

#[test]
fn closed_images_return() {
    let mut random = Random::new(21);
    for _ in 0..1000 {
        let clip = random_clip(&mut random);
        let (image, file) = (clip.image(), file_of(&clip).bytes());
        assert_eq!(export(&image), Ok(file.clone()));
        assert_eq!(import(&file, clip.start.size), Ok(image.clone()));
        let refused =
            [export_to(&image, file.len() - 1), import_to(&file, clip.start.size, image.len() - 1)];
        assert_eq!(refused, [14, 8].map(|code| Err(Refused::by(code))));
    }
}

#[test]
fn accepted_files_return_at_any_block_size_and_play_as_one_block() {
    let mut random = Random::new(22);
    let mut accepted = 0;
    for _ in 0..1000 {
        let mut file = file_of(&random_clip(&mut random));
        if random.below(2) == 0 {
            put_any_bytes(&mut random, &mut file);
        }
        let mut bytes = file.bytes();
        if random.below(2) == 0 {
            bytes = damaged(&mut random, &bytes);
        }
        let size = random_size(&mut random);
        let Ok(image) = import(&bytes, size) else { continue };
        let whole = 96 + body_size(Header::read(&bytes).total) as usize;
        assert_eq!(export(&image).unwrap(), bytes[..whole]);
        let opened = open(&image).unwrap();
        assert_eq!(opened.block, size - size % 8);
        assert_eq!(opened.play_all(usize::MAX).unwrap().0, as_one_block(&bytes));
        accepted += 1;
    }
    assert!(accepted > 500, "{accepted}");
}

#[test]
fn the_first_gap_is_where_playing_from_the_first_block_on_differs() {
    let mut random = Random::new(23);
    let mut gaps = 0;
    for _ in 0..3000 {
        let image = random_clip(&mut random).image();
        let image = with_other_history(&mut random, &image);
        let opened = open(&image).unwrap();
        let mut history = opened.entries[0].context.last_samples;
        let mut first = None;
        for (k, entry) in opened.entries.iter().enumerate() {
            if history != entry.context.last_samples {
                first = first.or(Some(k as u32));
            }
            let context = oracle::FrameContext { last_samples: history, ..entry.context };
            let body = opened.body(entry);
            history =
                oracle::decode(body, entry.nibbles, &opened.coefficients, context).1.last_samples;
        }
        let right = first.map(|block| Refused { code: 35, block });
        assert_eq!(export(&image).err(), right);
        gaps += u32::from(right.is_some());
    }
    assert!(gaps > 300, "{gaps}");
}
