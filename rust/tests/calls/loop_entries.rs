//! Images whose loop's entry is altered: which are refused, and what the others play.

use crate::clips::{Random, encode, encode_from, every_loop, noise, start_of, tone, with_loop};
use crate::reading;
use doilycairn::*;

/// The image of a clip with a loop.
fn looped(clip: &[i16], block_size: u32, looped: (u32, u32)) -> Vec<u8> {
    encode_from(&with_loop(start_of(clip, block_size), looped), clip)
}

/// Where the entry of an image's loop stands.
fn entry_place(bytes: &[u8]) -> usize {
    56 + 16 * u32::from_be_bytes(bytes[52..56].try_into().unwrap()) as usize
}

/// The image with these bytes in the place of its own.
fn with(image: &[u8], place: usize, values: &[u8]) -> Vec<u8> {
    let mut bytes = image.to_vec();
    bytes[place..place + values.len()].copy_from_slice(values);
    bytes
}

/// Why an image does not open: what its bytes tell, and what comparing says too.
fn refused(bytes: &[u8]) -> Option<Refusal> {
    let why = Image::open(bytes).err();
    assert_eq!(why, reading::refusal(bytes));
    for compare in [same, sounds_same] {
        assert_eq!(compare(bytes, bytes).err().filter(|why| *why != Refusal::LowestPair), why);
    }
    why
}

// ---- one turn by the documents' words

/// What playing carries: the header and the two samples before.
struct Player {
    header: u8,
    newest: i16,
    older: i16,
}

impl Player {
    fn new(context: FrameContext) -> Self {
        let FrameContext { predictor_and_scale, last_samples: [newest, older] } = context;
        Self { header: predictor_and_scale as u8, newest, older }
    }

    fn play(&mut self, nibble: u8, coefficients: &Coefficients) -> i16 {
        let (c0, c1) = coefficients.pairs()[usize::from(self.header >> 4 & 7)];
        let [c0, c1, newest, older] = [c0, c1, self.newest, self.older].map(i64::from);
        let nibble = if nibble < 8 { i64::from(nibble) } else { i64::from(nibble) - 16 };
        let sample = ((c0 * newest + c1 * older + 1024) >> 11) + (nibble << (self.header & 15));
        self.older = self.newest;
        self.newest = sample.clamp(i16::MIN.into(), i16::MAX.into()) as i16;
        self.newest
    }
}

/// One turn: from the stored context, each later frame under its own header, each later block from its own entry.
fn turn(image: &Image) -> Vec<i16> {
    let (Some(Loop { start, end }), Some(context)) = (image.looped(), image.loop_context()) else {
        return vec![];
    };
    let (blocks, per_block) = (image.blocks().collect::<Vec<_>>(), image.head().block / 8 * 14);
    let mut player = Player::new(context);
    let mut sample = |i: u32| {
        let (block, place) = (&blocks[(i / per_block) as usize], (i % per_block) as usize);
        let frame = &block.bytes[place / 14 * 8..];
        match place {
            0 if i > start => player = Player::new(block.context),
            _ if i > start && place % 14 == 0 => player.header = frame[0],
            _ => {}
        }
        let byte = frame[1 + place % 14 / 2];
        player.play(if place % 2 == 0 { byte >> 4 } else { byte & 15 }, &block.coefficients)
    };
    (start..end).map(&mut sample).collect()
}

/// The loop plays its turn any number of times, unless a pair is the lowest twice.
fn plays_its_turn(bytes: &[u8]) {
    let image = Image::open(bytes).unwrap();
    let is_lowest = image.head().coefficients.pairs().contains(&(i16::MIN, i16::MIN));
    for times in [0, 1, 3] {
        let turns = turn(&image).repeat(times);
        let expected = if is_lowest { Err(Refusal::LowestPair) } else { Ok(turns) };
        assert_eq!(image.play_loop(times as u32), expected);
    }
}

#[test]
fn any_history_may_be_stored_and_each_turn_plays_from_it() {
    let clip = noise(60, 9000, 8);
    for (start, end) in every_loop(60).step_by(7) {
        let whole = looped(&clip, 16, (start, end));
        let straight = Image::open(&whole).unwrap().play_loop(1).unwrap();
        for history in
            [[0, 0, 0, 0], [0x7f, 0xff, 0x80, 0], [0x80, 0, 0x7f, 0xff], [0x12, 0x34, 0xed, 0xcb]]
        {
            let bytes = with(&whole, entry_place(&whole) + 10, &history);
            assert_eq!(refused(&bytes), None);
            plays_its_turn(&bytes);
            // From the next block on it is what it was.
            let image = Image::open(&bytes).unwrap();
            let (turn, next) = (image.play_loop(1).unwrap(), (start / 28 * 28 + 28).min(end));
            let from = (next - start) as usize;
            assert_eq!(turn[from..], straight[from..]);
            assert_eq!(image.play(), Image::open(&whole).unwrap().play());
        }
    }
}

#[test]
fn a_later_block_is_played_from_its_own_entry() {
    let whole = looped(&tone(60), 16, (5, 50));
    let bytes = with(&whole, 56 + 16 + 10, &[0x20, 0, 0xe0, 7]);
    assert_eq!(refused(&bytes), None);
    plays_its_turn(&bytes);
    let play = |bytes| Image::open(bytes).unwrap().play_loop(1).unwrap();
    assert_eq!(play(&bytes)[..23], play(&whole)[..23]);
    assert_ne!(play(&bytes)[23..], play(&whole)[23..]);
}

// ---- 24

#[test]
fn start_and_end_are_a_loops() {
    // Silence after silence: all headers are zero.
    let (coefficients, history) = (Coefficients::default(), History::default());
    let silence = Start { coefficients, history, ..start_of(&[0; 60], 16) };
    let whole = encode_from(&with_loop(silence, (20, 40)), &[0; 60]);
    let at = entry_place(&whole);
    for start in (0..62).chain([255, 1 << 16, u32::MAX]) {
        for end in (0..62).chain([255, 1 << 16, u32::MAX]) {
            let values = [start, end].map(u32::to_be_bytes).concat();
            let bytes = with(&whole, at, &values);
            let is_loop = start < end && end <= 60;
            assert_eq!(refused(&bytes), (!is_loop).then_some(Refusal::BadLoop), "{start} {end}");
            if is_loop {
                assert_eq!(Image::open(&bytes).unwrap().looped(), Some(Loop { start, end }));
                plays_its_turn(&bytes);
            }
        }
    }
}

/// The header is that of the frame that holds the start, which need not be the first of its block.
#[test]
fn the_header_is_that_frames() {
    let clip = [noise(14, 9000, 1), noise(14, 40, 1), noise(14, 600, 2), noise(14, 2, 3)].concat();
    for start in 0..56 {
        let whole = looped(&clip, 16, (start, 56));
        let (at, frame) = (entry_place(&whole), start as usize / 14);
        let body = at + 16 + 8 * frame;
        assert_eq!((refused(&whole), whole[at + 8], whole[at + 9]), (None, 0, whole[body]));
        for bit in 0..8 {
            let other = whole[body] ^ 1 << bit;
            assert_eq!(refused(&with(&whole, at + 8, &[1 << bit])), Some(Refusal::BadLoop));
            assert_eq!(refused(&with(&whole, at + 9, &[other])), Some(Refusal::BadLoop));
            let first = (frame % 2 == 0).then_some(Refusal::BadHeader { block: frame as u32 / 2 });
            let bytes = with(&whole, body, &[other]);
            assert_eq!(refused(&bytes), first.or(Some(Refusal::BadLoop)));
            // Altered alike where it stands, it opens.
            let mut bytes = with(&bytes, at + 9, &[other]);
            if first.is_some() {
                bytes[56 + 16 * (frame / 2) + 9] = other;
            }
            assert_eq!(refused(&bytes), None);
            plays_its_turn(&bytes);
        }
    }
}

#[test]
fn its_two_zero_bytes_are_zero() {
    let whole = looped(&tone(60), 16, (20, 40));
    let at = entry_place(&whole);
    for (place, value) in (14..16).flat_map(|place| (1..=255).map(move |value| (place, value))) {
        assert_eq!(refused(&with(&whole, at + place, &[value])), Some(Refusal::BadLoop));
    }
}

#[test]
fn the_loop_is_tested_after_every_block_and_before_the_pairs() {
    let whole = looped(&tone(60), 16, (20, 40));
    let at = entry_place(&whole);
    let bad = with(&with(&whole, at + 15, &[1]), 16, &[0x80, 0, 0x80, 0]);
    for compare in [same, sounds_same] {
        assert_eq!(compare(&bad, &whole), Err(Refusal::BadLoop));
        assert_eq!(compare(&whole, &bad), Err(Refusal::BadLoop));
        assert_eq!(compare(&with(&bad, at + 15, &[0]), &bad), Err(Refusal::LowestPair));
    }
    for block in 0..3 {
        for (place, number) in [(3, 20), (7, 21), (15, 21), (9, 22)] {
            let place = 56 + 16 * block + place;
            let why = refused(&with(&bad, place, &[bad[place] ^ 1])).unwrap();
            assert_eq!((why.number(), why.block()), (number, Some(block as u32)));
        }
    }
    assert_eq!(refused(&bad).map(Refusal::block), Some(None));
}

// ---- bytes 50 and 51

#[test]
fn the_count_of_loops_is_0_or_1() {
    let (plain, whole) = (encode(&tone(60), 16), looped(&tone(60), 16, (20, 40)));
    // Without its loop's entry the offsets would be 16 less.
    let bad_offset = Some(Refusal::BadOffset { block: 0 });
    assert_eq!(refused(&with(&whole, 50, &[0, 0])), bad_offset);
    // With one there would be 16 bytes more.
    assert_eq!(refused(&with(&plain, 50, &[0, 1])), Some(Refusal::BadHead));
    let mut longer = [&plain[..], &[0; 15]].concat();
    assert_eq!(refused(&with(&longer, 50, &[0, 1])), Some(Refusal::BadHead));
    longer.push(0);
    assert_eq!(refused(&with(&longer, 50, &[0, 1])), bad_offset);
    for count in (2..=u16::MAX).step_by(127).chain([2, 3, 255, 256, 257, u16::MAX]) {
        for bytes in [&longer, &whole] {
            assert_eq!(refused(&with(bytes, 50, &count.to_be_bytes())), Some(Refusal::BadHead));
        }
    }
}

#[test]
fn every_shorter_length() {
    for (count, block_size) in [(1, 8), (14, 8), (15, 8), (200, 40), (200, 65_536)] {
        let whole = looped(&tone(count), block_size, (0, 1));
        for length in 0..whole.len() {
            assert_eq!(refused(&whole[..length]), Some(Refusal::BadHead));
        }
        assert_eq!(refused(&whole), None);
    }
}

// ---- damage

#[test]
fn every_bit_of_head_and_table() {
    let whole = looped(&noise(200, 9000, 4), 40, (71, 150));
    let (at, mut opened) = (entry_place(&whole), 0);
    for (place, bit) in (0..at + 16).flat_map(|place| (0..8).map(move |bit| (place, bit))) {
        let bytes = with(&whole, place, &[whole[place] ^ 1 << bit]);
        let why = refused(&bytes);
        match place.checked_sub(at) {
            Some(8 | 9 | 14 | 15) => assert_eq!(why, Some(Refusal::BadLoop)),
            Some(10..14) => assert_eq!(why, None),
            Some(_) => assert!(matches!(why, None | Some(Refusal::BadLoop))),
            None => assert_ne!(why, Some(Refusal::BadLoop)),
        }
        if why.is_none() {
            plays_its_turn(&bytes);
            opened += 1;
        }
    }
    // Rate, coefficients, gain, the histories of three blocks and of the loop; and some that are another loop.
    assert!(opened > 8 * (4 + 34 + 3 * 4 + 4), "{opened}");
}

#[test]
fn damage_in_many_places() {
    let mut random = Random(17);
    let shapes = [
        (1, 8, (0, 1)),
        (15, 8, (3, 15)),
        (60, 16, (20, 40)),
        (200, 40, (71, 150)),
        (300, 65_536, (299, 300)),
    ];
    let images = shapes.map(|(n, b, l)| looped(&noise(n, 9000, 5), b, l));
    let mut seen = [0; 25];
    for turn in 0..20_000 {
        let mut bytes = images[turn % images.len()].clone();
        for _ in 0..1 + random.next() % 4 {
            let place = random.next() as usize % bytes.len();
            bytes[place] = random.next() as u8;
        }
        let why = refused(&bytes);
        seen[why.map_or(0, Refusal::number) as usize] += 1;
        if why.is_none() {
            plays_its_turn(&bytes);
        }
    }
    assert!([0, 15, 20, 21, 22, 24].iter().all(|code| seen[*code] > 100), "{seen:?}");
}
