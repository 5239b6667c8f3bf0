//! Words without their case and the composition of their letters.

use std::collections::HashMap;
use std::sync::OnceLock;

/// Composed letters up to U+1FFF, a line each: the letter, and what it is composed of (Unicode's canonical decompositions).
const COMPOSITIONS: &str = include_str!("compositions.txt");

/// What a letter is composed of.
fn parts(letter: char) -> Option<&'static str> {
    static TABLE: OnceLock<HashMap<char, &str>> = OnceLock::new();
    let table = TABLE.get_or_init(|| {
        let lines = COMPOSITIONS.lines().filter_map(|line| line.chars().next().map(|first| (first, line)));
        lines.map(|(letter, line)| (letter, &line[letter.len_utf8()..])).collect()
    });
    table.get(&letter).copied()
}

/// A word whose letters are taken apart.
fn decomposed(word: &str) -> String {
    if word.is_ascii() {
        return word.to_owned();
    }
    let mut letters = String::new();
    word.chars().for_each(|letter| match parts(letter) {
        Some(parts) => letters += parts,
        None => letters.push(letter),
    });
    letters
}

/// A word without case and composition: two words that differ only so are folded to the same.
pub(super) fn folded(word: &str) -> String {
    decomposed(&word.to_lowercase())
}

/// In what two words differ that are folded to the same.
pub(super) fn difference(one: &str, other: &str) -> &'static str {
    match decomposed(one) == decomposed(other) {
        true => "spelt with other code points",
        false => "of another case",
    }
}

#[cfg(test)]
mod tests {
    use super::*;

    #[test]
    fn case_and_composition() {
        assert_eq!(folded("Étage"), folded("e\u{301}tage"));
        assert_eq!(folded("SEVEN"), "seven");
        assert_ne!(folded("etage"), folded("étage"));
        assert_eq!(difference("é", "e\u{301}"), "spelt with other code points");
        assert_eq!(difference("Seven", "seven"), "of another case");
    }
}
