//! The list of clips to measure.

use super::{bytes, digits_of, list, words};
use doilycairn::Measure;

/// The numbers of the store that the list is made for.
const STORE: usize = 2 * 64;

/// Fourteen samples of a line, as many as it says.
fn samples(line: &str) -> Vec<i16> {
    let count: usize = line[1..3].parse().unwrap();
    words::<14>(&bytes(&line[3..]))[..count].to_vec()
}

/// A float's bits, one and the same for every NaN.
fn float_digits(value: f64) -> String {
    let bits = if value.is_nan() { 0x7ff8_0000_0000_0000 } else { value.to_bits() };
    format!("{bits:016x}")
}

/// The records, the one of the filled up frame with them, and the coefficients. `count` is how many the answer should have.
fn answer(mut measure: Measure, count: usize) -> String {
    let coefficients = measure.coefficients().unwrap();
    let (calculator, store) = measure.into_parts();
    let whole = calculator.records as usize;
    assert!(count == whole || count == whole + 1 && !calculator.samples.is_multiple_of(14));
    let mut line = count.to_string();
    for record in store[..2 * count].chunks(2) {
        line += &format!(" {}{}", float_digits(record[0]), float_digits(record[1]));
    }
    format!("{line} {}", digits_of(&coefficients.0))
}

#[test]
fn coefficients() {
    let (lines, answers) = list("coefficient_list");
    let mut answers = answers.iter();
    let mut store = vec![0.0; STORE];
    let mut calculator = doilycairn::Calculator::new();
    let mut piece = vec![];
    for line in &lines {
        piece.extend(samples(line));
        match &line[..1] {
            "n" => calculator = doilycairn::Calculator::new(),
            "m" => match calculator.process(&std::mem::take(&mut piece), &mut store) {
                Ok(next) => calculator = next,
                Err(why) => {
                    assert_eq!(format!("refused {}", why.number()), *answers.next().unwrap())
                }
            },
            "a" => {
                let expected = answers.next().unwrap();
                let count = expected.split(' ').next().unwrap().parse().unwrap();
                let measure = Measure::from_parts(calculator, store.clone());
                assert_eq!(answer(measure, count), *expected);
            }
            _ => {}
        }
    }
    assert_eq!(answers.next(), None);
}
