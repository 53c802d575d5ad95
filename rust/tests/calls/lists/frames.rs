//! The list of frames.

use super::{bytes, digits, digits_of, list, words};
use doilycairn::{Coefficients, Encoder, History, Start, encode_frame};

struct Frame {
    count: usize,
    history: History,
    samples: [i16; 14],
    coefficients: Coefficients,
}

fn parse(line: &str) -> Frame {
    let record = bytes(&line.replace(' ', ""));
    let [newest, older] = words(&record[1..]);
    Frame {
        count: record[0].into(),
        history: History { newest, older },
        samples: words(&record[5..]),
        coefficients: Coefficients(words(&record[33..])),
    }
}

/// The frame by itself.
fn answer(frame: &Frame) -> String {
    match encode_frame(frame.history, &frame.samples, &frame.coefficients) {
        Err(why) => format!("refused {}", why.number()),
        Ok(done) => format!("{} {:02x}", digits(&done.bytes), done.passes),
    }
}

/// The frame's history, from a clip of its real samples alone.
fn history(frame: &Frame) -> String {
    let Frame { count, history, coefficients, .. } = *frame;
    let clip = Start {
        total: count as u32,
        rate: 1,
        block_size: 8,
        gain: 0,
        coefficients,
        history,
        looped: None,
    };
    let mut encoder = Encoder::start(&clip).unwrap();
    encoder.feed(&frame.samples[..count]).unwrap();
    encoder.close().unwrap();
    let History { newest, older } = encoder.state().history;
    format!("{} {}", digits_of(&[newest]), digits_of(&[older]))
}

#[test]
fn frames() {
    let (lines, answers) = list("frame_list");
    assert_eq!(lines.len(), answers.len());
    for (line, expected) in lines.iter().zip(answers) {
        let frame = parse(line);
        let mut answered = answer(&frame);
        if !answered.starts_with("refused") {
            answered = format!("{answered} {}", history(&frame));
        }
        assert_eq!(answered, expected, "{line}");
    }
}
