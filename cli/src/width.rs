//! How wide texts are on a terminal.

use std::ops::RangeInclusive;

/// Letters that stand on the one before them.
const COMBINING: [RangeInclusive<char>; 7] = [
    '\u{300}'..='\u{36f}',
    '\u{1ab0}'..='\u{1aff}',
    '\u{1dc0}'..='\u{1dff}',
    '\u{200b}'..='\u{200f}',
    '\u{20d0}'..='\u{20ff}',
    '\u{fe00}'..='\u{fe0f}',
    '\u{fe20}'..='\u{fe2f}',
];

/// Letters that take two columns: those of Chinese, Japanese and Korean, and pictures.
const WIDE: [RangeInclusive<char>; 9] = [
    '\u{1100}'..='\u{115f}',
    '\u{2e80}'..='\u{303e}',
    '\u{3041}'..='\u{a4cf}',
    '\u{ac00}'..='\u{d7a3}',
    '\u{f900}'..='\u{faff}',
    '\u{fe30}'..='\u{fe6f}',
    '\u{ff00}'..='\u{ff60}',
    '\u{1f300}'..='\u{1f9ff}',
    '\u{20000}'..='\u{3fffd}',
];

/// The columns that a text takes.
pub fn columns(text: &str) -> usize {
    let is_in = |ranges: &[RangeInclusive<char>], letter: char| ranges.iter().any(|range| range.contains(&letter));
    let width = |letter: char| match letter {
        letter if is_in(&COMBINING, letter) => 0,
        letter if is_in(&WIDE, letter) => 2,
        _ => 1,
    };
    text.chars().map(width).sum()
}

/// A text with blanks behind it up to so many columns.
pub fn padded(text: &str, width: usize) -> String {
    format!("{text}{}", " ".repeat(width.saturating_sub(columns(text))))
}

#[cfg(test)]
mod tests {
    use super::{columns, padded};

    #[test]
    fn letters_of_every_width() {
        for (text, width) in [("oak", 3), ("e\u{301}", 1), ("木戸", 4), ("문", 2), ("", 0)] {
            assert_eq!(columns(text), width, "{text}");
            assert_eq!(columns(&padded(text, 6)), 6, "{text}");
        }
        assert_eq!(padded("door", 2), "door");
    }
}
