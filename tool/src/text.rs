//! Numbers and names in words for people.

use std::ffi::OsStr;

/// A count with a comma after each three digits.
pub fn count(number: impl Into<i128>) -> String {
    let number = number.into();
    let digits = number.unsigned_abs().to_string();
    let mut text = String::from(if number < 0 { "-" } else { "" });
    for (i, digit) in digits.chars().enumerate() {
        if i > 0 && (digits.len() - i).is_multiple_of(3) {
            text.push(',');
        }
        text.push(digit);
    }
    text
}

/// A count and its noun.
pub fn counted(number: impl Into<i128>, one: &str, many: &str) -> String {
    let number = number.into();
    format!("{} {}", count(number), if number == 1 { one } else { many })
}

/// How long so many samples play: seconds, or minutes and seconds.
pub fn duration(samples: u64, rate: u32) -> String {
    let seconds = samples as f64 / f64::from(rate.max(1));
    match seconds {
        0.0..0.9995 => format!("{:.1} ms", 1000.0 * seconds),
        0.0..59.9995 => format!("{seconds:.3} s"),
        _ => {
            let tenths = (10.0 * seconds).round() as u64;
            format!("{}:{:02}.{} min", count(tenths / 600), tenths / 10 % 60, tenths % 10)
        }
    }
}

/// A count of samples, their rate and how long they play.
pub fn clip_length(samples: u32, rate: u32) -> String {
    let counted = counted(samples, "sample", "samples");
    format!("{counted} at {} Hz ({})", count(rate), duration(samples.into(), rate))
}

/// A path as a message shows it: control characters escaped, bytes that are not UTF-8 replaced.
pub fn shown(path: &OsStr) -> String {
    let escape = |c: char| match c.is_control() {
        true => c.escape_default().to_string(),
        false => c.to_string(),
    };
    path.to_string_lossy().chars().map(escape).collect()
}

#[cfg(test)]
mod tests {
    use super::*;

    #[test]
    fn commas_after_three_digits() {
        let wanted = [(0, "0"), (999, "999"), (1000, "1,000"), (-14_680_064, "-14,680,064")];
        for (number, text) in wanted {
            assert_eq!(count(number), text);
        }
        assert_eq!(counted(1, "byte", "bytes"), "1 byte");
        assert_eq!(counted(2000, "byte", "bytes"), "2,000 bytes");
    }

    #[test]
    fn durations() {
        let wanted =
            [(1, "0.1 ms"), (7992, "999.0 ms"), (8000, "1.000 s"), (479_999, "1:00.0 min")];
        for (samples, text) in wanted {
            assert_eq!(duration(samples, 8000), text);
        }
        assert_eq!(duration(14_680_064, 48_000), "5:05.8 min");
        assert_eq!(duration(u32::MAX.into(), 1), "71,582,788:15.0 min");
        assert_eq!(clip_length(1, 8000), "1 sample at 8,000 Hz (0.1 ms)");
    }

    #[test]
    fn control_characters_are_escaped() {
        assert_eq!(shown(OsStr::new("a\n\u{1b}[2Jé.wav")), "a\\n\\u{1b}[2Jé.wav");
    }
}
