//! The commands of the binary `oracle`, one a line, and their answers.
//!
//! Words are separated by spaces:
//!
//! - a number is decimal;
//! - a list of numbers (samples, coefficients) is joined by commas, `-` if empty;
//! - pieces are lists joined by `/`;
//! - bytes are hexadecimal, `-` if none;
//! - a float is its bits as 16 hexadecimal digits, any NaN is `nan`;
//! - records are pairs of floats `v1:v2` joined by commas, `-` if none.
//!
//! | command | answer |
//! |---|---|
//! | `measure` pieces | `ok` records coefficients |
//! | `coefficients` records | `ok` coefficients |
//! | `process_frame` history(28) | `ok` record history(28) |
//! | `encode_frame` newest older samples coefficients | `ok` bytes passes newest older |
//! | `encode` rate block-size gain newest older coefficients pieces | `ok` passes newest older block... |
//! | `decode` length predictor-and-scale newest older coefficients bytes | `ok` samples predictor-and-scale newest older |
//! | `address_to_sample` address | `ok` sample |
//! | `sample_to_address` sample | `ok` address |
//! | `join` coefficients bytes coefficients bytes | `ok` bytes |
//!
//! A block is `bytes:length:rate:predictor-and-scale:newest:older:gain`, without its coefficients,
//! which are those given. Where the Rust gives an error the answer is `refused` and its name;
//! where it panics, `panic` and the message; where the line is not a command, `bad` and why.

use crate::{
    Block, Coefficients, Error, FrameContext, History, Record, address_to_sample, caught,
    coefficients_of_records, decode, encode, encode_frame, join, measure, process_frame,
    sample_to_address,
};
use std::fmt::Display;
use std::str::{FromStr, SplitAsciiWhitespace};

/// Why a line is not a command.
type Bad<T> = Result<T, String>;

/// Runs a command and gives its answer.
pub fn answer(line: &str) -> String {
    match caught(|| run(line)) {
        Ok(Ok(answer)) => answer,
        Ok(Err(why)) => format!("bad {why}"),
        Err(message) => format!("panic {}", message.replace('\n', " ")),
    }
}

/// Reads a command and runs it.
fn run(line: &str) -> Bad<String> {
    let mut words = Words(line.split_ascii_whitespace());
    let answer = match words.next()? {
        "measure" => run_measure(&mut words)?,
        "coefficients" => run_coefficients(&mut words)?,
        "process_frame" => run_process_frame(&mut words)?,
        "encode_frame" => run_encode_frame(&mut words)?,
        "encode" => run_encode(&mut words)?,
        "decode" => run_decode(&mut words)?,
        "address_to_sample" => format!("ok {}", address_to_sample(words.number()?)),
        "sample_to_address" => format!("ok {}", sample_to_address(words.number()?)),
        "join" => run_join(&mut words)?,
        other => return Err(format!("command {other}")),
    };
    words.end()?;
    Ok(answer)
}

fn run_measure(words: &mut Words) -> Bad<String> {
    let pieces = words.pieces()?;
    let pieces: Vec<_> = pieces.iter().map(Vec::as_slice).collect();
    let measured = measure(&pieces);
    Ok(format!("ok {} {}", records(&measured.records), list(&measured.coefficients)))
}

fn run_coefficients(words: &mut Words) -> Bad<String> {
    Ok(format!("ok {}", list(&coefficients_of_records(&words.records()?))))
}

fn run_process_frame(words: &mut Words) -> Bad<String> {
    let mut history = words.array()?;
    let record = process_frame(&mut history);
    Ok(format!("ok {} {}", records(record.as_slice()), list(&history)))
}

fn run_encode_frame(words: &mut Words) -> Bad<String> {
    let (history, samples, coefficients) = (words.history()?, words.list()?, words.array()?);
    if !(1..=14).contains(&samples.len()) {
        return Err(format!("{} samples", samples.len()));
    }
    let (body, passes, end) = encode_frame(history, &samples, &coefficients);
    Ok(format!("ok {} {passes} {} {}", bytes(&body), end[0], end[1]))
}

fn run_encode(words: &mut Words) -> Bad<String> {
    let (rate, size, gain) = (words.number()?, words.number()?, words.number()?);
    let (history, coefficients, pieces) = (words.history()?, words.array()?, words.pieces()?);
    let pieces: Vec<_> = pieces.iter().map(Vec::as_slice).collect();
    Ok(match encode(&pieces, rate, size, &coefficients, gain, history) {
        Ok(encoded) => {
            let [newest, older] = encoded.history;
            let blocks: String = encoded.blocks.iter().map(block).collect();
            format!("ok {} {newest} {older}{blocks}", encoded.passes)
        }
        Err(error) => refused(error),
    })
}

fn run_decode(words: &mut Words) -> Bad<String> {
    let (len, predictor_and_scale) = (words.number()?, words.number()?);
    let (last_samples, coefficients, body) = (words.history()?, words.array()?, words.bytes()?);
    let context = FrameContext { predictor_and_scale, last_samples };
    let (samples, end) = decode(&body, len, &coefficients, context);
    let [newest, older] = end.last_samples;
    Ok(format!("ok {} {} {newest} {older}", list(&samples), end.predictor_and_scale))
}

fn run_join(words: &mut Words) -> Bad<String> {
    let (first_coefficients, first): (Coefficients, _) = (words.array()?, words.bytes()?);
    let (second_coefficients, second) = (words.array()?, words.bytes()?);
    Ok(match join(&first, &first_coefficients, &second, &second_coefficients) {
        Ok(joined) => format!("ok {}", bytes(&joined)),
        Err(error) => refused(error),
    })
}

/// The answer where the Rust gives an error.
fn refused(error: Error) -> String {
    format!("refused {error:?}")
}

/// Writes a list of numbers.
fn list<T: Display>(numbers: &[T]) -> String {
    joined(numbers, |number| number.to_string())
}

/// Writes records.
fn records(records: &[Record]) -> String {
    joined(records, |record| format!("{}:{}", float(record[0]), float(record[1])))
}

/// Writes a float.
fn float(value: f64) -> String {
    if value.is_nan() { "nan".into() } else { format!("{:016x}", value.to_bits()) }
}

/// Writes bytes.
fn bytes(bytes: &[u8]) -> String {
    match bytes {
        [] => "-".into(),
        _ => bytes.iter().map(|byte| format!("{byte:02x}")).collect(),
    }
}

/// Writes a block, with a space before it.
fn block(block: &Block) -> String {
    let Block { len, rate, predictor_and_scale, gain, .. } = block;
    let [newest, older] = block.last_samples;
    let body = bytes(&block.bytes);
    format!(" {body}:{len}:{rate}:{predictor_and_scale}:{newest}:{older}:{gain}")
}

/// Writes items joined by commas, or `-`.
fn joined<T>(items: &[T], write: impl Fn(&T) -> String) -> String {
    match items {
        [] => "-".into(),
        _ => items.iter().map(write).collect::<Vec<_>>().join(","),
    }
}

/// The words of a command that are not read yet.
struct Words<'a>(SplitAsciiWhitespace<'a>);

impl<'a> Words<'a> {
    /// Reads a word.
    fn next(&mut self) -> Bad<&'a str> {
        self.0.next().ok_or_else(|| "too few words".into())
    }

    /// Reads the end.
    fn end(&mut self) -> Bad<()> {
        self.0.next().map_or(Ok(()), |word| Err(format!("word {word}")))
    }

    /// Reads a number.
    fn number<T: FromStr>(&mut self) -> Bad<T> {
        number(self.next()?)
    }

    /// Reads the newest sample and the older one.
    fn history(&mut self) -> Bad<History> {
        Ok([self.number()?, self.number()?])
    }

    /// Reads a list of samples.
    fn list(&mut self) -> Bad<Vec<i16>> {
        items(self.next()?, number)
    }

    /// Reads a list of exactly `N` samples or coefficients.
    fn array<const N: usize>(&mut self) -> Bad<[i16; N]> {
        let list = self.list()?;
        let len = list.len();
        list.try_into().map_err(|_| format!("{len} numbers instead of {N}"))
    }

    /// Reads pieces.
    fn pieces(&mut self) -> Bad<Vec<Vec<i16>>> {
        self.next()?.split('/').map(|piece| items(piece, number)).collect()
    }

    /// Reads records.
    fn records(&mut self) -> Bad<Vec<Record>> {
        items(self.next()?, |text| {
            let (first, second) = text.split_once(':').ok_or(format!("record {text}"))?;
            Ok([parse_float(first)?, parse_float(second)?])
        })
    }

    /// Reads bytes.
    fn bytes(&mut self) -> Bad<Vec<u8>> {
        let word = self.next()?;
        let digits = if word == "-" { "" } else { word };
        let (pairs, rest) = digits.as_bytes().as_chunks::<2>();
        let bytes = pairs.iter().map(|pair| hexadecimal(str::from_utf8(pair).unwrap_or("?")));
        if rest.is_empty() {
            bytes.map(|byte| Ok(byte? as u8)).collect()
        } else {
            Err(format!("bytes {word}"))
        }
    }
}

/// Reads a decimal number.
fn number<T: FromStr>(text: &str) -> Bad<T> {
    text.parse().map_err(|_| format!("number {text}"))
}

/// Reads a hexadecimal number.
fn hexadecimal(text: &str) -> Bad<u64> {
    u64::from_str_radix(text, 16).map_err(|_| format!("hexadecimal {text}"))
}

/// Reads a float.
fn parse_float(text: &str) -> Bad<f64> {
    if text == "nan" { Ok(f64::NAN) } else { hexadecimal(text).map(f64::from_bits) }
}

/// Reads items joined by commas, or `-`.
fn items<T>(text: &str, read: impl Fn(&str) -> Bad<T>) -> Bad<Vec<T>> {
    if text == "-" { Ok(vec![]) } else { text.split(',').map(read).collect() }
}
