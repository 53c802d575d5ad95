//! Runs random clips and writes what panicked and what did not agree.
//! Usage: self_run [clips] [seed]

use oracle::self_run::self_run;
use std::env;
use std::process::ExitCode;

fn main() -> ExitCode {
    let report = self_run(argument(1, 2000) as u32, argument(2, 1));
    println!("{} clips, {} samples, {} passes", report.clips, report.samples, report.passes);
    println!("{} panics, {} differences", report.panics.len(), report.differences.len());
    for line in report.panics.iter().chain(&report.differences) {
        println!("{line}");
    }
    if report.panics.is_empty() && report.differences.is_empty() {
        ExitCode::SUCCESS
    } else {
        ExitCode::FAILURE
    }
}

/// The argument at a place, as a number.
fn argument(place: usize, default: u64) -> u64 {
    env::args().nth(place).map_or(default, |text| text.parse().expect("a number"))
}
