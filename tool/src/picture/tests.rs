//! Tests of the picture: well-formed and complete.

mod loops;
mod marks;

use super::layout::{LEFT, RIGHT};
use super::path::units;
use super::seen::COLUMNS;
use super::xml::{self, Element};
use super::{draw, walk::walk, words};
use doilycairn::{Coefficients, Encoder, History, Image, Loop, Start};

/// Pseudo-random samples within 16 bits that become louder.
fn noise(count: u32) -> Vec<i16> {
    let mut seed = 9_u64;
    let sample = |i: u32| {
        seed = seed.wrapping_mul(6_364_136_223_846_793_005).wrapping_add(1);
        let loud = 1 + u64::from(i) * 30_000 / u64::from(count);
        ((seed >> 33) % (2 * loud)) as i64 - loud as i64
    };
    (0..count).map(sample).map(|sample| sample as i16).collect()
}

fn encode(clip: &[i16], block_size: u32) -> Vec<u8> {
    encode_with(clip, block_size, None)
}

fn encode_with(clip: &[i16], block_size: u32, looped: Option<Loop>) -> Vec<u8> {
    let start = Start {
        total: clip.len() as u32,
        rate: 32_000,
        block_size,
        gain: 0,
        coefficients: Coefficients::measure(clip).unwrap(),
        history: History::default(),
        looped,
    };
    let mut encoder = Encoder::start(&start).unwrap();
    encoder.feed(clip).unwrap();
    encoder.close().unwrap();
    encoder.into_parts().1
}

/// The picture's text, and its elements.
fn picture(bytes: &[u8], reference: Option<&[i16]>) -> (String, Vec<Element>) {
    let mut out = vec![];
    draw("clip.dspc", &Image::open(bytes).unwrap(), reference, &mut out).unwrap();
    let text = String::from_utf8(out).unwrap();
    let elements = xml::elements(&text);
    (text, elements)
}

/// The data of the paths of a class, joined.
fn data(elements: &[Element], class: &str) -> String {
    let of_class = |element: &&Element| element.attribute("class") == Some(class);
    elements.iter().filter(of_class).filter_map(|element| element.attribute("d")).collect()
}

/// Where the steps of a path begin: the x of each.
fn begins(data: &str) -> Vec<String> {
    let x = |part: &str| part.split(' ').next().unwrap().to_string();
    data.split('M').skip(1).map(x).collect()
}

#[test]
fn any_length_is_well_formed_and_within_the_picture() {
    let lengths =
        [1, 2, 3, 13, 14, 15, 16, 27, 28, 29, 159, 160, 161, 1119, 1120, 1121, 2240, 2241];
    for count in lengths.into_iter().chain([15_679, 15_680, 15_681, 15_695, 40_000]) {
        let clip = noise(count);
        let sizes = if count < 2000 { &[8, 15, 24, 1000, 65_536][..] } else { &[8, 1000] };
        for block_size in sizes {
            let bytes = encode(&clip, *block_size);
            let some = if count < 2000 { &clip[..] } else { &[] };
            for reference in [None, Some(&clip[1..]), Some(some)] {
                let (text, elements) = picture(&bytes, reference);
                assert!(text.len() < 500_000);
                assert_eq!((elements[0].name(), elements[1].name()), ("svg", "title"));
                for class in ["wave", "exponent", "predictor", "edge", "distance", "bound"] {
                    for x in begins(&data(&elements, class)) {
                        assert!((LEFT..=RIGHT).contains(&x.parse().unwrap()), "{class} {x}");
                    }
                }
            }
        }
    }
}

#[test]
fn a_name_may_have_any_letters() {
    let (bytes, mut out) = (encode(&noise(20), 64), vec![]);
    draw("a<b>&\"c'.dspc", &Image::open(&bytes).unwrap(), None, &mut out).unwrap();
    let text = String::from_utf8(out).unwrap();
    xml::elements(&text);
    assert!(text.contains(">a&lt;b&gt;&amp;\"c'.dspc<"));
}

#[test]
fn one_sample() {
    let (text, elements) = picture(&encode(&[9], 8), None);
    let words = "1 sample at 32,000 Hz (0.0 ms); 1 frame, 1 block of up to 8 bytes; gain 0.";
    assert!(text.contains(&format!(">{words}<")));
    assert!(text.contains(&format!("<title>clip.dspc: {words}</title>")));
    assert!(text.contains(">clip.dspc<"));
    assert!(text.contains(">One sample.<"));
    let middle = units((LEFT + RIGHT) / 2.0);
    assert_eq!(begins(&data(&elements, "wave")), [middle]);
    assert_eq!(begins(&data(&elements, "dots")).len(), 1);
    assert_eq!(data(&elements, "exponent").matches('M').count(), 1);
    for none in ["edge", "jump", "click", "distance"] {
        assert_eq!(data(&elements, none), "", "{none}");
    }
}

#[test]
fn few_samples_are_points_and_many_are_columns() {
    for count in [2, 160, 161, 1120] {
        let elements = picture(&encode(&noise(count), 64), None).1;
        let wave = data(&elements, "wave");
        assert_eq!((wave.matches('M').count(), wave.matches('L').count()), (1, count as usize - 1));
        let dots = if count > 160 { 0 } else { count as usize };
        assert_eq!(data(&elements, "dots").matches('M').count(), dots);
    }
    for count in [1121, 5000, 100_000] {
        let wave = data(&picture(&encode(&noise(count), 64), None).1, "wave");
        let expected: Vec<String> = (0..COLUMNS).map(|g| units(LEFT + f64::from(g))).collect();
        assert_eq!(begins(&wave), expected);
    }
}

#[test]
fn edges_stand_where_blocks_begin() {
    for (count, block_size, samples) in [(300, 24, 42), (20, 8, 14), (5000, 1000, 1750)] {
        let elements = picture(&encode(&noise(count), block_size), None).1;
        let x =
            |sample: u32| units(LEFT + f64::from(sample) / f64::from(count) * f64::from(COLUMNS));
        // A line in each of the three panels.
        let expected = (samples..count).step_by(samples as usize).flat_map(|s| [x(s), x(s), x(s)]);
        assert_eq!(begins(&data(&elements, "edge")), expected.collect::<Vec<_>>());
    }
}

#[test]
fn very_many_edges_are_thinned_out_and_that_is_said() {
    let (text, elements) = picture(&encode(&noise(14_000), 8), None);
    assert!(text.contains("999 block edges"));
    assert!(text.contains("Drawn: every 20th block edge."));
    let edges = begins(&data(&elements, "edge"));
    assert_eq!(edges.len(), 3 * 49);
    assert_eq!(edges[0], units(LEFT + 20.0 * 14.0 / 14_000.0 * f64::from(COLUMNS)));
}

#[test]
fn each_frame_has_its_exponent_and_predictor() {
    let clip = noise(3000);
    let bytes = encode(&clip, 64);
    let image = Image::open(&bytes).unwrap();
    let seen = walk(&image, None).unwrap();
    let headers = image.blocks().flat_map(|block| block.bytes.iter().step_by(8));
    let headers: Vec<u8> = headers.copied().collect();
    assert_eq!((seen.cells.len(), headers.len()), (215, 215));
    for (cell, header) in seen.cells.iter().zip(headers) {
        assert_eq!(cell.exponents[usize::from(header & 15)], 1);
        assert_eq!(cell.predictors[usize::from(header >> 4)], 1);
    }
    assert_eq!((0..8).map(|k| seen.predicted_by(k)).sum::<u32>(), 215);
}

#[test]
fn gathered_cells_and_columns_have_all_frames_and_samples() {
    let clip = noise(40_000);
    let bytes = encode(&clip, 64);
    let image = Image::open(&bytes).unwrap();
    let (seen, played) = (walk(&image, Some(&clip)).unwrap(), image.play().unwrap());
    assert_eq!(seen.cells.iter().flat_map(|cell| cell.exponents).sum::<u32>(), seen.frames);
    for (g, column) in seen.columns.iter().enumerate() {
        let (from, to) = (seen.sample_of(g) as usize, seen.sample_of(g + 1) as usize);
        let shown = &played[from.saturating_sub(1)..to];
        assert_eq!(Some(&column.low), shown.iter().min());
        assert_eq!(Some(&column.high), shown.iter().max());
        let far = (from..to).map(|i| u32::from(played[i].abs_diff(clip[i]))).max();
        assert_eq!(Some(column.distance), far);
    }
    assert_eq!(seen.sample_of(seen.columns.len()), 40_000);
    assert_eq!(seen.cell_start(seen.cells.len()), 40_000);
}

#[test]
fn references_of_other_lengths_and_equal_ones() {
    let clip = vec![0; 100];
    let bytes = encode(&clip, 64);
    let told = |reference: &[i16]| picture(&bytes, Some(reference)).0;
    assert!(told(&clip).contains(">Equal to the recording.<"));
    assert!(told(&clip[1..]).contains(">Equal to the recording. The recording has 99 samples.<"));
    assert!(
        told(&[5]).contains("recording: 5 at sample 0 (exponent 0, bound 2). The recording has 1")
    );
    assert!(told(&[]).contains(">The recording has no sample.<"));
}

#[test]
fn exponents_above_12_have_room() {
    let mut bytes = encode(&noise(20), 64);
    let body = bytes.len() - 8 - 4;
    (bytes[body], bytes[65]) = (0x0f, 0x0f);
    let seen = walk(&Image::open(&bytes).unwrap(), None).unwrap();
    assert_eq!((seen.exponents(), seen.cells[0].exponents[15]), (16, 1));
    picture(&bytes, None);
}

#[test]
fn what_does_not_play_or_cannot_be_written_is_an_error() {
    let mut bytes = encode(&noise(20), 64);
    let image = Image::open(&bytes).unwrap();
    assert!(draw("clip.dspc", &image, None, &mut &mut [0; 100][..]).is_err());
    bytes[16..20].copy_from_slice(&[0x80, 0, 0x80, 0]);
    let error = draw("clip.dspc", &Image::open(&bytes).unwrap(), None, &mut vec![]).unwrap_err();
    assert_eq!(error.to_string(), "a pair of coefficients is -32,768 twice (refusal 13)");
}

#[test]
fn numbers_in_words() {
    let words = [0, 7, 999, 1000, -32_768, 14_680_064].map(|value: i64| words::number(value));
    assert_eq!(words, ["0", "7", "999", "1,000", "−32,768", "14,680,064"]);
    let shares = [(0, 9), (1, 1000), (1, 3), (2, 3), (9, 9)].map(|(a, b)| words::percent(a, b));
    assert_eq!(shares, ["0%", "<1%", "33%", "67%", "100%"]);
    assert_eq!([1.0, -0.001, 2.5, 0.125].map(units), ["1", "0", "2.5", "0.12"]);
}
