//! Times along the axis.

/// The most numbers along an axis.
pub const LABELS: u32 = 12;

/// The step between labels, in seconds: at most [`LABELS`] of them in all.
pub fn step(seconds: f64) -> f64 {
    let below = (-12..0).flat_map(|e| [1.0, 2.0, 5.0].map(|digit| digit * 10_f64.powi(e)));
    let hours = (0..9).flat_map(|e| [1.0, 2.0, 5.0].map(|digit| 3600.0 * digit * 10_f64.powi(e)));
    let between = [1, 2, 5, 10, 15, 30, 60, 120, 300, 600, 1200, 1800].map(f64::from);
    let mut steps = below.chain(between).chain(hours);
    steps.find(|step| seconds / step <= f64::from(LABELS)).unwrap_or(seconds)
}

/// A time as minutes and seconds, or, where steps are small, milliseconds.
pub fn label(seconds: f64, step: f64) -> String {
    if step < 0.1 {
        let decimals = (-(1000.0 * step).log10().floor()).max(0.0) as usize;
        return format!("{:.decimals$} ms", 1000.0 * seconds);
    }
    let tenths = (10.0 * seconds).round() as u64;
    let text = format!("{}:{:02}", tenths / 600, tenths / 10 % 60);
    if step < 1.0 { format!("{text}.{}", tenths % 10) } else { text }
}

#[cfg(test)]
mod tests {
    use super::*;

    #[test]
    fn steps_and_labels() {
        let cases = [
            (300.0, 30.0, "1:30"),
            (5.324, 0.5, "0:01.5"),
            (0.6, 0.05, "150 ms"),
            (0.000_44, 0.000_05, "0.15 ms"),
            (3000.0, 300.0, "15:00"),
            (14_680_064.0, 1_800_000.0, "90000:00"),
            (1e-9, 1e-10, "0.0000003 ms"),
        ];
        for (seconds, wanted, text) in cases {
            let step = step(seconds);
            assert!((step / wanted - 1.0).abs() < 1e-9, "{seconds}: {step}");
            assert_eq!(label(3.0 * step, step), text);
        }
    }
}
