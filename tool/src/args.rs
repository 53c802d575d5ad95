//! The words of a command line: options and operands.

use crate::failure::Failure;
use crate::options::{COMMON, Opt};
use crate::suggest::nearest;
use crate::text::{count, shown};
use std::ffi::{OsStr, OsString};
use std::ops::RangeInclusive;
use std::os::unix::ffi::OsStrExt;

/// What was given.
#[derive(Debug, Default)]
pub struct Args {
    pub operands: Vec<OsString>,
    given: Vec<(&'static str, OsString)>,
}

impl Args {
    /// Sorts the words. `--` ends the options; `-` is an operand.
    pub fn parse(words: &[OsString], options: &[Opt]) -> Result<Self, Failure> {
        let mut args = Args::default();
        let mut words = words.iter();
        while let Some(word) = words.next() {
            match word.as_bytes() {
                b"--" => args.operands.extend(words.by_ref().cloned()),
                [b'-', _, ..] => args.take(word, &mut words, options)?,
                _ => args.operands.push(word.clone()),
            }
        }
        Ok(args)
    }

    /// Takes one option, and its value.
    fn take<'a>(
        &mut self,
        word: &OsStr,
        rest: &mut impl Iterator<Item = &'a OsString>,
        options: &[Opt],
    ) -> Result<(), Failure> {
        let (name, joined) = split(word);
        let known = |opt: &&Opt| name == opt.name.as_bytes() || name == opt.short.as_bytes();
        let Some(opt) = options.iter().chain(&COMMON).find(known) else {
            return Err(unknown(word, options.iter().chain(&COMMON)));
        };
        let value = match (opt.value.is_some(), joined) {
            (false, None) => OsString::new(),
            (false, Some(_)) => {
                return Err(Failure::usage(format!("{} takes no value", opt.name)));
            }
            (true, Some(joined)) => joined.to_owned(),
            (true, None) => rest
                .next()
                .cloned()
                .ok_or_else(|| Failure::usage(format!("{} lacks its value", opt.name)))?,
        };
        if opt.value.is_some() && self.value(opt.name).is_some() {
            return Err(Failure::usage(format!("{} is given twice", opt.name)));
        }
        self.given.push((opt.name, value));
        Ok(())
    }

    /// Whether an option was given.
    pub fn has(&self, name: &str) -> bool {
        self.value(name).is_some()
    }

    /// The value of an option.
    pub fn value(&self, name: &str) -> Option<&OsStr> {
        self.given.iter().find(|(given, _)| *given == name).map(|(_, value)| value.as_os_str())
    }

    /// The value of an option as a number within a range.
    pub fn number(&self, name: &str, range: RangeInclusive<u64>) -> Result<Option<u64>, Failure> {
        let Some(value) = self.value(name) else { return Ok(None) };
        match value.to_str().and_then(number).filter(|number| range.contains(number)) {
            Some(number) => Ok(Some(number)),
            None => Err(Failure::usage(format!(
                "{name}: '{}' is not a number from {} to {}",
                shown(value),
                count(*range.start()),
                count(*range.end())
            ))),
        }
    }

    /// At least one operand.
    pub fn expect_some(&self, name: &str) -> Result<(), Failure> {
        match self.operands.is_empty() {
            true => Err(Failure::usage(format!("{name} is missing"))),
            false => Ok(()),
        }
    }

    /// Exactly as many operands as the command has.
    pub fn expect(&self, names: &[&str]) -> Result<(), Failure> {
        if let Some(missing) = names.get(self.operands.len()) {
            return Err(Failure::usage(format!("{missing} is missing")));
        }
        match self.operands.get(names.len()) {
            Some(word) => Err(Failure::usage(format!("'{}' is one word too many", shown(word)))),
            None => Ok(()),
        }
    }
}

/// An option that is none, and what it may have meant.
pub fn unknown<'a>(word: &OsStr, known: impl Iterator<Item = &'a Opt>) -> Failure {
    let failure = Failure::usage(format!("unknown option '{}'", shown(word)));
    let name = String::from_utf8_lossy(split(word).0).into_owned();
    match nearest(&name, known.map(|opt| opt.name)) {
        Some(meant) => failure.with(format!("; did you mean '{meant}'?")),
        None => failure,
    }
}

/// An option's name, and what stands after `=`.
pub fn split(word: &OsStr) -> (&[u8], Option<&OsStr>) {
    let bytes = word.as_bytes();
    match bytes.iter().position(|&byte| byte == b'=') {
        Some(at) if bytes.starts_with(b"--") => {
            (&bytes[..at], Some(OsStr::from_bytes(&bytes[at + 1..])))
        }
        _ => (bytes, None),
    }
}

/// A whole number, decimal or hexadecimal after 0x; one that 64 bits do not hold counts as the largest that they do.
fn number(text: &str) -> Option<u64> {
    let (digits, radix) = match text.strip_prefix("0x") {
        Some(digits) => (digits, 16),
        None => (text, 10),
    };
    match !digits.is_empty() && digits.chars().all(|c| c.is_digit(radix)) {
        true => Some(u64::from_str_radix(digits, radix).unwrap_or(u64::MAX)),
        false => None,
    }
}

#[cfg(test)]
mod tests {
    use super::*;
    use crate::options::{flag, value};

    const OPTIONS: [Opt; 2] = [flag("--raw", "no head"), value("--rate", "HZ", "a rate")];

    fn parse(words: &[&str]) -> Result<Args, Failure> {
        let words: Vec<OsString> = words.iter().map(Into::into).collect();
        Args::parse(&words, &OPTIONS)
    }

    #[test]
    fn options_and_operands_in_any_order() {
        let args = parse(&["a", "--rate", "-5", "-", "-q", "--raw", "--", "--raw", "-x"]).unwrap();
        assert_eq!(args.operands, ["a", "-", "--raw", "-x"]);
        assert_eq!(args.value("--rate"), Some(OsStr::new("-5")));
        assert!(args.has("--raw") && args.has("--quiet") && !args.has("--json"));
        let args = parse(&["--rate=0x7D00"]).unwrap();
        assert_eq!(args.number("--rate", 0..=40_000).unwrap(), Some(32_000));
        assert_eq!(args.number("--gain", 0..=1).unwrap(), None);
    }

    #[test]
    fn what_is_wrong_is_said() {
        let message = |words: &[&str]| parse(words).unwrap_err().message;
        assert_eq!(message(&["--what"]), "unknown option '--what'");
        let wrong = "unknown option '--rat=5'; did you mean '--rate'?";
        assert_eq!(message(&["--rat=5"]), wrong);
        assert_eq!(message(&["--raw=1"]), "--raw takes no value");
        assert_eq!(message(&["--rate"]), "--rate lacks its value");
        assert_eq!(message(&["--rate", "1", "--rate", "2"]), "--rate is given twice");
        for wrong in ["", "x", "-1", "0x", "1.5", "99999999999999999999999"] {
            let args = parse(&["--rate", wrong]).unwrap();
            assert!(args.number("--rate", 0..=65_535).is_err(), "{wrong}");
        }
        let args = parse(&["a", "b"]).unwrap();
        assert_eq!(args.expect(&["A", "B", "C"]).unwrap_err().message, "C is missing");
        assert_eq!(args.expect(&["A"]).unwrap_err().message, "'b' is one word too many");
        assert!(args.expect(&["A", "B"]).is_ok());
    }
}
