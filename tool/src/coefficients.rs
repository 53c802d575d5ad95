//! Coefficients from a file: sixteen numbers as text, or those of an image.

use crate::failure::Failure;
use crate::input::ImageFile;
use doilycairn::Coefficients;
use std::ffi::OsStr;

/// Reads them. An image is known by its mark.
pub fn read(path: &OsStr) -> Result<Coefficients, Failure> {
    let file = ImageFile::read(path)?;
    if file.bytes.starts_with(b"DSPC") {
        return Ok(file.open()?.head().coefficients);
    }
    parse(&String::from_utf8_lossy(&file.bytes)).map_err(|words| Failure::input(&file.name, words))
}

/// Sixteen whole numbers, apart by blanks, commas or lines; what follows # on a line is left out.
fn parse(text: &str) -> Result<Coefficients, String> {
    let mut numbers = vec![];
    for (i, line) in text.lines().enumerate() {
        let line = line.split('#').next().unwrap_or("");
        let is_gap = |c: char| c.is_whitespace() || c == ',';
        for word in line.split(is_gap).filter(|word| !word.is_empty()) {
            let number = word.parse::<i16>().map_err(|_| {
                let shown: String = word.chars().take(20).flat_map(char::escape_debug).collect();
                format!("line {}: '{shown}' is not a number from -32,768 to 32,767", i + 1)
            })?;
            numbers.push(number);
        }
    }
    let count = numbers.len();
    let sixteen = <[i16; 16]>::try_from(numbers);
    sixteen.map(Coefficients).map_err(|_| format!("{count} coefficients; sixteen are needed"))
}

#[cfg(test)]
mod tests {
    use super::*;

    #[test]
    fn sixteen_numbers() {
        let numbers: [i16; 16] = std::array::from_fn(|i| i as i16 * 100 - 800);
        let text = numbers.map(|number| number.to_string());
        for gap in [" ", ",", ", ", "\n", "\r\n", " # said\n"] {
            assert_eq!(parse(&text.join(gap)), Ok(Coefficients(numbers)));
        }
    }

    #[test]
    fn what_is_wrong_is_said() {
        assert_eq!(parse("1 2 3"), Err("3 coefficients; sixteen are needed".into()));
        assert_eq!(parse(""), Err("0 coefficients; sixteen are needed".into()));
        let wrong = parse("1 2\n3 4x\n").unwrap_err();
        assert_eq!(wrong, "line 2: '4x' is not a number from -32,768 to 32,767");
        assert!(parse("40000").is_err());
        assert!(parse(&"1 ".repeat(17)).is_err());
    }
}
