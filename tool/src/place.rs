//! A place in a clip, as options name it: a sample's number, or a time.

/// A sample's number, or a time in seconds.
#[derive(Clone, Copy, Debug, PartialEq)]
pub enum Place {
    Sample(u64),
    Seconds(f64),
}

impl Place {
    /// From words: 1234, 12.5s or 1:02.5.
    pub fn of(text: &str) -> Option<Self> {
        let seconds = match (text.strip_suffix('s'), text.split_once(':')) {
            (Some(seconds), _) => decimal(seconds)?,
            (_, Some((minutes, seconds))) => {
                let seconds = decimal(seconds).filter(|seconds| *seconds < 60.0)?;
                60.0 * f64::from(minutes.parse::<u16>().ok()?) + seconds
            }
            _ => {
                let digits = text.bytes().all(|byte| byte.is_ascii_digit());
                return text.parse().ok().filter(|_| digits).map(Place::Sample);
            }
        };
        Some(Place::Seconds(seconds))
    }

    /// The sample, or the nearest one to the time.
    pub fn sample(self, rate: u32) -> u64 {
        match self {
            Place::Sample(sample) => sample,
            Place::Seconds(seconds) => (seconds * f64::from(rate)).round() as u64,
        }
    }
}

/// A number of seconds.
fn decimal(text: &str) -> Option<f64> {
    let plain = text.bytes().all(|byte| byte.is_ascii_digit() || byte == b'.');
    text.parse().ok().filter(|_| plain)
}

#[cfg(test)]
mod tests {
    use super::*;

    #[test]
    fn samples_and_times() {
        let read = |text| Place::of(text).map(|place| place.sample(32_000));
        assert_eq!(
            ["0", "1234", "1s", "0.5s", "1:02.5"].map(read),
            [0, 1234, 32_000, 16_000, 2_000_000].map(Some)
        );
        for wrong in ["", "x", "-1", "1.5", "s", "-1s", "1e3s", "1:60", "1:2:3", ":5", "infs", "1:"]
        {
            assert_eq!(read(wrong), None, "{wrong}");
        }
        // The nearest one: 0.1 ms is 3.2 samples, and 0.12 ms is 3.84.
        assert_eq!(["0.0001s", "0:00.00012"].map(read), [Some(3), Some(4)]);
    }
}
