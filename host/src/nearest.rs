//! The word that was probably meant.

/// Letters changed, put in, taken out or swapped with their neighbour.
fn distance(from: &str, to: &str) -> usize {
    let (from, to): (Vec<char>, Vec<char>) = (from.chars().collect(), to.chars().collect());
    let mut rows = vec![(0..=to.len()).collect::<Vec<usize>>()];
    for i in 1..=from.len() {
        let mut row = vec![i];
        for j in 1..=to.len() {
            let changed = usize::from(from[i - 1] != to[j - 1]);
            let mut least = (rows[i - 1][j] + 1)
                .min(row[j - 1] + 1)
                .min(rows[i - 1][j - 1] + changed);
            if i > 1 && j > 1 && from[i - 1] == to[j - 2] && from[i - 2] == to[j - 1] {
                least = least.min(rows[i - 2][j - 2] + 1);
            }
            row.push(least);
        }
        rows.push(row);
    }
    rows[from.len()][to.len()]
}

/// The longest word that is compared.
const MOST_LETTERS: usize = 24;

/// The nearest of some words, where one is near: a letter of three at most is wrong.
pub fn nearest<'a>(word: &str, words: &[&'a str]) -> Option<&'a str> {
    if word.len() > MOST_LETTERS {
        return None;
    }
    let near = |known: &&str| distance(word, known) <= (known.len() / 3).max(1);
    let words = words.iter().copied().filter(near);
    words.min_by_key(|known| distance(word, known))
}

/// A question in brackets behind an unknown word, or nothing.
pub fn did_you_mean(word: &str, words: &[&str]) -> String {
    nearest(word, words).map_or(String::new(), |known| format!(" (did you mean '{known}'?)"))
}

#[cfg(test)]
mod tests {
    use super::*;

    #[test]
    fn near_words() {
        let words = ["explain", "plan", "costs", "mot", "mdt"];
        for (word, meant) in [
            ("explian", Some("explain")),
            ("exlain", Some("explain")),
            ("pln", Some("plan")),
            ("cost", Some("costs")),
            ("mob", Some("mot")),
            ("mtd", Some("mdt")),
            ("month.csv", None),
            ("x", None),
            ("", None),
        ] {
            assert_eq!(nearest(word, &words), meant, "{word}");
        }
    }
}
