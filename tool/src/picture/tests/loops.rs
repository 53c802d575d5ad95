//! Tests of how a loop is shown.

use super::{begins, data, encode, encode_with, noise, picture};
use crate::picture::layout::{LEFT, RIGHT};
use crate::picture::path::units;
use crate::picture::seen::COLUMNS;
use crate::picture::xml::Element;
use doilycairn::Loop;

fn looped(count: u32, block_size: u32, start: u32, end: u32) -> Vec<u8> {
    encode_with(&noise(count), block_size, Some(Loop { start, end }))
}

/// The paths of a class, each with its data.
fn paths<'a>(elements: &'a [Element], class: &str) -> Vec<&'a str> {
    let of_class = |element: &&Element| element.attribute("class") == Some(class);
    elements.iter().filter(of_class).filter_map(|element| element.attribute("d")).collect()
}

#[test]
fn two_marks_and_the_samples_between() {
    for (count, start, end) in
        [(1, 0, 1), (20, 5, 17), (300, 0, 300), (3000, 980, 981), (40_000, 1, 39_999)]
    {
        let (text, elements) = picture(&looped(count, 80, start, end), None);
        let x = |sample: u32| LEFT + f64::from(sample) / f64::from(count) * f64::from(COLUMNS);
        let [from, to] = [start, end].map(x);
        let paths = paths(&elements, "loop");
        assert_eq!(paths.len(), 5, "{paths:?}");
        assert!(paths[0].starts_with(&format!("M{} ", units(from))));
        assert!(paths[0].contains(&format!("h{}v", units(to - from))));
        // A line above the panels and in each of the three, and a tip.
        for (mark, x) in [(&paths[1..3], from), (&paths[3..], to)] {
            assert_eq!(begins(mark[0]), [(); 4].map(|()| units(x)));
            assert_eq!(begins(mark[1]), [units(x)]);
        }
        assert!(
            text.contains(">loop from ")
                && text.contains(">Loop from sample ")
                && text.contains(">loop<")
        );
        assert_eq!(data(&elements, "click"), "");
    }
    let (text, elements) = picture(&encode(&noise(300), 80), None);
    assert!(paths(&elements, "loop").is_empty() && !text.contains("oop"));
}

/// The lines of the title and of what is beside marks.
fn labels(elements: &[Element]) -> Vec<f64> {
    let bold = |element: &&Element| {
        element.name() == "text" && element.attribute("font-weight") == Some("bold")
    };
    let line = |element: &Element| element.attribute("y").unwrap().parse().unwrap();
    elements.iter().filter(bold).map(line).collect()
}

#[test]
fn labels_of_loop_jump_and_title_have_lines_of_their_own() {
    let mut clip: Vec<i16> =
        (0..2000).map(|i| (f64::from(i) * 0.02).sin() * 5000.0).map(|s| s as i16).collect();
    clip[1000..].iter_mut().for_each(|sample| *sample += 9000);
    for points in [None, Some(Loop { start: 990, end: 1010 })] {
        let bytes = encode_with(&clip, 64, points);
        for reference in [None, Some(&clip[..])] {
            let elements = picture(&bytes, reference).1;
            let lines = labels(&elements);
            assert!(lines.windows(2).all(|pair| pair[0] != pair[1]), "{lines:?}");
            for (i, line) in lines.iter().enumerate() {
                assert!(lines[..i].iter().all(|other| (other - line).abs() >= 14.0), "{lines:?}");
            }
        }
    }
}

#[test]
fn a_history_that_is_off_is_marked_at_the_start() {
    let mut bytes = looped(3000, 80, 985, 2000);
    let entry = 56 + 16 * 22;
    let history = i16::from_be_bytes([bytes[entry + 10], bytes[entry + 11]]).wrapping_add(777);
    bytes[entry + 10..entry + 12].copy_from_slice(&history.to_be_bytes());
    let (text, elements) = picture(&bytes, None);
    assert!(text.contains(">loop from 985 up to 2,000, click: history off by 777<"));
    assert!(text.contains(" Its stored history is not what was played before it, by 777.<"));
    assert!(text.contains(">click<") && text.contains("No click at 21 block edges"));
    let x = units(LEFT + 985.0 / 3000.0 * f64::from(COLUMNS));
    assert!(begins(&data(&elements, "click")).iter().all(|begin| *begin == x));
    assert_eq!(paths(&elements, "click").len(), 2);
    assert_eq!(paths(&elements, "loop").len(), 3);
}

#[test]
fn any_loop_is_within_the_picture() {
    for count in [1, 2, 14, 15, 29, 160, 1120, 1121, 15_681] {
        let ends = [0, 1, count / 2, count - 1, count];
        let all = ends.iter().flat_map(|start| ends.map(|end| (*start, end)));
        for (start, end) in all.filter(|(start, end)| start < end) {
            let elements = picture(&looped(count, 1000, start, end), None).1;
            for x in begins(&data(&elements, "loop")) {
                assert!((LEFT..=RIGHT).contains(&x.parse().unwrap()), "{count} {start} {end}");
            }
        }
    }
}
