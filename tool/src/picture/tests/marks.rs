//! Tests of what is marked in the picture, and of what explains it.

use super::{begins, data, encode, encode_with, noise, picture};
use crate::picture::layout::LEFT;
use crate::picture::path::units;
use crate::picture::seen::COLUMNS;
use crate::picture::walk::walk;
use crate::picture::words;
use crate::picture::xml::Element;
use doilycairn::{Image, Loop};

#[test]
fn the_largest_jump_and_distance_are_told() {
    let clip = noise(2000);
    let bytes = encode(&clip, 64);
    let played = Image::open(&bytes).unwrap().play().unwrap();
    let (jump, at) = largest_jump(&played);
    let (text, elements) = picture(&bytes, Some(&clip));
    let number = |value: usize| words::number(value as i64);
    let words = format!("Largest jump: {}, from sample {} to", number(jump), number(at - 1));
    assert!(text.contains(&words));
    // In noise no jump stands out.
    assert_eq!(data(&elements, "jump"), "");

    let distances = played.iter().zip(&clip).map(|(a, b)| a.abs_diff(*b)).collect::<Vec<_>>();
    let far = *distances.iter().max().unwrap();
    let at = distances.iter().position(|size| *size == far).unwrap();
    assert!(text.contains(&format!(">distance {} at {}<", number(far.into()), number(at))));
}

/// The largest jump, and the sample that it leads to.
fn largest_jump(played: &[i16]) -> (usize, usize) {
    let jumps = played.windows(2).map(|pair| usize::from(pair[0].abs_diff(pair[1])));
    let jumps: Vec<usize> = jumps.collect();
    let jump = *jumps.iter().max().unwrap();
    (jump, jumps.iter().position(|size| *size == jump).unwrap() + 1)
}

#[test]
fn a_jump_is_marked_where_it_stands_out() {
    let smooth: Vec<i16> =
        (0..2000).map(|i| (f64::from(i) * 0.02).sin() * 5000.0).map(|s| s as i16).collect();
    let jumps: Vec<i16> =
        smooth.iter().enumerate().map(|(i, s)| s + if i < 1234 { 0 } else { 9000 }).collect();
    let bytes = encode(&jumps, 64);
    let (jump, at) = largest_jump(&Image::open(&bytes).unwrap().play().unwrap());
    assert!(at.abs_diff(1234) < 3);
    let mark = format!(">jump {} at {}<", words::number(jump as i64), words::number(at as i64));
    let (text, elements) = picture(&bytes, None);
    assert!(text.contains(&mark) && text.contains("It stands out from what is around it."));
    assert!(text.contains(">jump that stands out<"));
    assert_eq!(begins(&data(&elements, "jump"))[0], units(LEFT + at as f64 / 2000.0 * 1120.0));
    // The recording jumps too: it is as it should be.
    let (text, elements) = picture(&bytes, Some(&jumps));
    assert!(data(&elements, "jump").is_empty() && !text.contains("stands out"));
    // One that does not: it is not.
    let (text, _) = picture(&bytes, Some(&smooth));
    assert!(text.contains(&mark) && text.contains("It stands out from the recording."));
    assert!(data(&picture(&encode(&smooth, 64), None).1, "jump").is_empty());
}

#[test]
fn the_root_mean_square_is_within_the_peaks_of_long_clips() {
    for (count, drawn) in [(1120 * 16 - 1, false), (1120 * 16, true), (40_000, true)] {
        let bytes = encode(&noise(count), 1024);
        let (text, elements) = picture(&bytes, None);
        assert_eq!(!data(&elements, "rms").is_empty(), drawn, "{count}");
        assert_eq!(text.contains(">root mean square<"), drawn);
        let seen = walk(&Image::open(&bytes).unwrap(), None).unwrap();
        let all: u64 = seen.columns.iter().map(|column| column.squares).sum();
        let played = Image::open(&bytes).unwrap().play().unwrap();
        assert_eq!(all, played.iter().map(|s| u64::from(s.unsigned_abs()).pow(2)).sum());
    }
}

#[test]
fn every_colour_is_explained_and_every_text_can_be_read() {
    let clip = noise(40_000);
    let mut bytes = encode_with(&clip, 1024, Some(Loop { start: 5000, end: 30_000 }));
    bytes[56 + 16 * 7 + 10] ^= 0x40;
    for reference in [None, Some(&clip[..])] {
        let elements = picture(&bytes, reference).1;
        let colours = |class: &str| -> Vec<(String, String)> {
            let of_class =
                elements.iter().filter(|element| element.attribute("class") == Some(class));
            let colour = |element: &Element| {
                let fill = element.attribute("fill").filter(|fill| *fill != "none");
                let opacity = element.attribute("fill-opacity").unwrap_or("1").to_string();
                (fill.or(element.attribute("stroke")).unwrap().to_string(), opacity)
            };
            of_class.map(colour).collect()
        };
        let explained = colours("swatch");
        let classes = [
            "wave",
            "rms",
            "exponent",
            "below",
            "predictor",
            "edge",
            "loop",
            "jump",
            "click",
            "distance",
            "bound",
        ];
        for class in classes {
            for (colour, _) in colours(class) {
                assert!(explained.iter().any(|(known, _)| *known == colour), "{class} {colour}");
            }
        }
        for text in elements.iter().filter(|element| element.name() == "text") {
            let size = text.attribute("font-size").unwrap_or("11").parse::<f64>().unwrap();
            assert!(size >= 11.0);
        }
    }
}

#[test]
fn times_stand_beside_samples() {
    let (text, elements) = picture(&encode(&noise(96_000), 8192), None);
    for time in [">0:00.0<", ">0:00.5<", ">0:02.5<", ">time<", ">sample<", ">block<"] {
        assert!(text.contains(time), "{time}");
    }
    // Half a second is 16,000 samples of 96,000.
    let x = units(LEFT + 1120.0 / 6.0);
    assert!(
        elements
            .iter()
            .any(|element| element.name() == "text" && element.attribute("x") == Some(&x))
    );
}

/// An image with another newest (10) or older (12) history in block `k`'s entry.
fn altered(mut bytes: Vec<u8>, k: usize, place: usize) -> Vec<u8> {
    let at = 56 + 16 * k + place;
    let history = i16::from_be_bytes([bytes[at], bytes[at + 1]]).wrapping_add(777);
    bytes[at..at + 2].copy_from_slice(&history.to_be_bytes());
    bytes
}

#[test]
fn a_history_that_is_off_is_marked_where_the_click_is() {
    let bytes = encode(&noise(3000), 80);
    let (text, elements) = picture(&bytes, None);
    assert!(text.contains("No click at 21 block edges"));
    assert_eq!(data(&elements, "click"), "");
    for place in [10, 12] {
        let (text, elements) = picture(&altered(bytes.clone(), 7, place), None);
        assert!(text.contains("is not what was played, most by 777 at sample 980."));
        assert!(text.contains(">click: history off by 777 at 980<"));
        let x = units(LEFT + 980.0 / 3000.0 * f64::from(COLUMNS));
        assert!(begins(&data(&elements, "click")).contains(&x));
    }
    // What stands before the first block is not a seam.
    assert!(picture(&altered(bytes, 0, 10), None).0.contains("No click at"));
}
