//! What a mistyped word may have meant.

/// The nearest of these words, where it is near enough to be meant.
pub fn nearest<'a>(word: &str, known: impl Iterator<Item = &'a str>) -> Option<&'a str> {
    let near = known.map(|other| (edits(word, other), other));
    let (edits, other) = near.min_by_key(|(edits, other)| (*edits, !other.starts_with(word)))?;
    let letters = word.trim_start_matches('-').chars().count();
    (edits <= 2 && 2 * edits < letters).then_some(other)
}

/// How many letters are to be added, left out, altered or swapped with their neighbour.
fn edits(from: &str, to: &str) -> usize {
    let [from, to] = [from, to].map(|word| word.chars().collect::<Vec<_>>());
    let mut rows: Vec<Vec<usize>> = vec![(0..=to.len()).collect()];
    for i in 1..=from.len() {
        let mut row = vec![i];
        for j in 1..=to.len() {
            let altered = rows[i - 1][j - 1] + usize::from(from[i - 1] != to[j - 1]);
            let mut least = altered.min(rows[i - 1][j] + 1).min(row[j - 1] + 1);
            if i > 1 && j > 1 && from[i - 2..i] == [to[j - 1], to[j - 2]] {
                least = least.min(rows[i - 2][j - 2] + 1);
            }
            row.push(least);
        }
        rows.push(row);
    }
    rows[from.len()][to.len()]
}

#[cfg(test)]
mod tests {
    use super::*;

    #[test]
    fn edits_of_words() {
        let pairs = [("", "abc"), ("abc", "abc"), ("abc", "acb"), ("abc", "abcd"), ("abc", "xyz")];
        assert_eq!(pairs.map(|(a, b)| edits(a, b)), [3, 0, 1, 1, 3]);
    }

    #[test]
    fn the_nearest_is_near() {
        let known = ["--version", "--help", "encode", "decode"];
        let nearest = |word| nearest(word, known.into_iter());
        assert_eq!(nearest("--verison"), Some("--version"));
        assert_eq!(nearest("encod"), Some("encode"));
        assert_eq!(nearest("dcode"), Some("decode"));
        for none in ["--what", "x", "", "--", "play"] {
            assert_eq!(nearest(none), None, "{none}");
        }
    }
}
