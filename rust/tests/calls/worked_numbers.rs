//! The worked numbers of document 01.

use doilycairn::*;

#[test]
fn addresses() {
    for (address, sample) in [(0, 0), (1, 0), (2, 0), (15, 13), (16, 14), (17, 14), (18, 14)] {
        assert_eq!(address_to_sample(address), sample);
    }
    assert_eq!(address_to_sample(19), 15);
    for (sample, address) in [(0, 2), (13, 15), (14, 18), (28, 34)] {
        assert_eq!(sample_to_address(sample), address);
    }
    assert_eq!(address_to_sample(u32::MAX), 14 * 268_435_455 + 13);
    assert_eq!(sample_to_address(u32::MAX), 4_294_967_295 + 2 * (4_294_967_295 / 14 + 1));
}

#[test]
fn frames_of_one_sample() {
    for (sample, bytes, passes, played) in [
        (7, [0x00, 0x70], 8, 7),
        (8, [0x00, 0x70], 8, 7),
        (-9, [0x00, 0x80], 8, -8),
        (9, [0x01, 0x40], 16, 8),
    ] {
        let mut samples = [0; 14];
        samples[0] = sample;
        let coefficients = Coefficients::default();
        let frame = encode_frame(History::default(), &samples, &coefficients).unwrap();
        assert_eq!((&frame.bytes[..2], frame.passes), (&bytes[..], passes));
        assert_eq!((&frame.bytes[2..], frame.history), (&[0; 6][..], History::default()));
        let context = FrameContext { predictor_and_scale: bytes[0].into(), last_samples: [0, 0] };
        let mut out = [0; 1];
        let after = play_bytes(&bytes, 3, &coefficients, context, &mut out).unwrap();
        assert_eq!((after.samples, out), (1, [played]));
        assert_eq!(after.context.last_samples, [played, 0]);
    }
}

#[test]
fn sizes() {
    assert_eq!(image_size(1, 8), Some(74));
    assert_eq!(image_size(14, 8), Some(80));
    assert_eq!(image_size(15, 8), Some(98));
    assert_eq!(image_size(15, 16), Some(82));
    assert_eq!(image_size(15, 23), Some(82));
    assert_eq!(image_size(MAX_SAMPLES, 8), Some(56 + 24 * (1 << 20)));
    for (total, block_size) in [(0, 8), (MAX_SAMPLES + 1, 8), (1, 7), (1, 65_537), (1, 0)] {
        assert_eq!(image_size(total, block_size), None);
    }
    for (samples, numbers) in [(0, 0), (1, 2), (14, 2), (15, 4), (MAX_SAMPLES, 1 << 21)] {
        assert_eq!(store_size(samples), numbers);
    }
    assert_eq!(store_size(u32::MAX), 2 * 306_783_379);
}

#[test]
fn the_sample_9_as_a_clip() {
    let start = Start {
        total: 1,
        rate: 32_000,
        block_size: 15,
        gain: 0,
        coefficients: Coefficients::default(),
        history: History::default(),
        looped: None,
    };
    let mut encoder = Encoder::start(&start).unwrap();
    encoder.feed(&[9]).unwrap();
    encoder.close().unwrap();
    let mut image = b"DSPC\0\0\0\x01\0\0\x7d\0\0\0\0\x08".to_vec();
    image.extend([0; 36]);
    image.extend(b"\0\0\0\x01\0\0\0\x48\0\0\0\x03\0\x01\0\0\0\0\0\0\x01\x40");
    assert_eq!(encoder.image(), image);
    assert_eq!(encoder.state().passes, 16);
    assert_eq!(Image::open(&image).unwrap().play(), Ok(vec![8]));
}
