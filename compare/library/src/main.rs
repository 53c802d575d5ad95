//! Compares the library with the Rust and writes a line for each part; fails where anything differs.
//! Usage: library COUNT SEED [PART].. [wrong=COMPARISON]

use library::{LONG, PARTS, Part, run};
use std::env;
use std::process::ExitCode;

fn main() -> ExitCode {
    let words: Vec<_> = env::args().skip(1).collect();
    match differences(&words) {
        Some(0) => ExitCode::SUCCESS,
        Some(_) => ExitCode::FAILURE,
        None => {
            let names = PARTS.map(|part| part.name).join(", ");
            eprintln!(
                "usage: library COUNT SEED [PART].. [wrong=COMPARISON]\nparts: {names}, and long"
            );
            ExitCode::from(2)
        }
    }
}

/// The differences of all parts asked for; none where the command line is wrong, or names a comparison that is not made.
fn differences(words: &[String]) -> Option<u64> {
    let [count, seed, rest @ ..] = words else { return None };
    let (count, seed) = (count.parse().ok()?, seed.parse().ok()?);
    let (wrong, names): (Vec<&str>, Vec<&str>) =
        rest.iter().map(String::as_str).partition(|word| word.starts_with("wrong="));
    let wrong = wrong.first().map(|word| &word["wrong=".len()..]);
    let parts = || PARTS.iter().chain([&LONG]);
    if names.iter().any(|name| parts().all(|part| part.name != *name)) {
        return None;
    }
    let is_asked = |part: &&Part| match names.is_empty() {
        true => part.name != LONG.name,
        false => names.contains(&part.name),
    };
    let (mut differences, mut made) = (0, wrong.is_none());
    for part in parts().filter(is_asked) {
        let tally = run(part, count, seed, wrong);
        println!("{tally}");
        differences += tally.differences;
        made |= wrong.is_some_and(|what| tally.compared.contains_key(what));
    }
    made.then_some(differences)
}
