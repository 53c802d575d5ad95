//! Tests of the findings: the first is the library's verdict, and so is each when those before it are mended.

use super::{ENTRY, Finding, HEAD, findings};
use doilycairn::{Coefficients, Encoder, History, Image, Loop, Refusal, Start};
use std::collections::BTreeSet;

/// Three blocks of up to two frames: entries at 56, 72 and 88, bodies at 104, 120 and 136. With a loop that begins in block 1 its entry is at
/// 104, and the bodies are 16 bytes on. Then bytes that are not its own. And how many are its own.
fn image(looped: bool) -> (Vec<u8>, usize) {
    let start = Start {
        total: 58,
        rate: 32_000,
        block_size: 16,
        gain: 0,
        coefficients: Coefficients::default(),
        history: History::default(),
        looped: looped.then_some(Loop { start: 45, end: 57 }),
    };
    let clip: Vec<i16> = (0..58).map(|i| 700 * (i % 9)).collect();
    let mut encoder = Encoder::start(&start).unwrap();
    encoder.feed(&clip).unwrap();
    encoder.close().unwrap();
    let mut bytes = encoder.into_parts().1;
    let size = bytes.len();
    assert_eq!(size, if looped { 154 } else { 138 });
    bytes.extend([0; 80]);
    (bytes, size)
}

/// The library's verdict, which the first finding has to call for.
fn verdict(bytes: &[u8]) -> Option<Refusal> {
    let verdict = Image::open(bytes).err();
    let found: Vec<_> = findings(bytes).collect();
    assert_eq!(found.first().map(|finding| finding.refusal), verdict, "{found:?}");
    verdict
}

#[test]
fn the_first_is_the_verdict_for_every_byte_and_pair_of_bytes() {
    for looped in [false, true] {
        let (good, size) = image(looped);
        let (mut bytes, mut seen) = (good.clone(), BTreeSet::new());
        for a in 0..size {
            for b in a..size {
                for (of_a, of_b) in [(1, 0), (1, 1), (0x80, 1), (1, 0x80), (0xff, 0xff)] {
                    bytes[a] ^= of_a;
                    bytes[b] ^= of_b;
                    seen.extend(verdict(&bytes));
                    (bytes[a], bytes[b]) = (good[a], good[b]);
                }
            }
        }
        let of_entry = |block| {
            [
                Refusal::BadOffset { block },
                Refusal::BadLength { block },
                Refusal::BadHeader { block },
            ]
        };
        let of_loop = looped.then_some(Refusal::BadLoop);
        let wanted = (0..3).flat_map(of_entry).chain([Refusal::BadHead]).chain(of_loop);
        assert_eq!(seen, wanted.collect(), "{looped}");
    }
}

/// Every start and end of a small clip and beyond, with every header.
#[test]
fn the_first_is_the_verdict_for_every_loop() {
    let (mut bytes, _) = image(true);
    let limits = [0, 1, 13, 14, 27, 28, 44, 45, 57, 58, 59, 1 << 31, u32::MAX];
    let mut seen = [0; 2];
    for start in limits {
        for end in limits {
            for header in 0..=255 {
                bytes[104..108].copy_from_slice(&start.to_be_bytes());
                bytes[108..112].copy_from_slice(&end.to_be_bytes());
                bytes[113] = header;
                seen[usize::from(verdict(&bytes).is_some())] += 1;
            }
        }
    }
    // A start that is a sample's has one header that is right.
    let legal = |start: &u32| limits.iter().filter(|end| *start < **end && **end <= 58).count();
    assert_eq!(seen[0], limits.iter().map(legal).sum::<usize>());
}

#[test]
fn each_is_the_verdict_when_those_before_it_are_mended() {
    for (looped, entries) in [(false, 3), (true, 4)] {
        let (good, _) = image(looped);
        let mut bytes = good.clone();
        for entry in bytes[HEAD..].chunks_mut(ENTRY).take(entries) {
            // The last bytes of offset, length, header and zero bytes; of the loop's start and end 45 and 57 become 44 and 56.
            for at in [3, 7, 9, 15] {
                entry[at] ^= 1;
            }
        }
        let found: Vec<_> = findings(&bytes).collect();
        assert_eq!(found.len(), if looped { 14 } else { 12 });
        for Finding { refusal, byte, .. } in found {
            assert_eq!(verdict(&bytes), Some(refusal));
            bytes[byte..byte + 4].copy_from_slice(&good[byte..byte + 4]);
        }
        assert_eq!(verdict(&bytes), None);
    }
}
