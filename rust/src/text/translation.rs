//! What rules become in another language.

use super::rule_fault::RuleFault;
use super::scan::quoted;
use std::fmt::{Display, Formatter};

/// What stands before the number of a part.
const REFERENCE: char = '$';

/// What a rule becomes: a text with the translations of parts of its body in it.
#[derive(Clone, Debug, PartialEq, Eq)]
pub(super) struct Template {
    /// As it is written, without quotes.
    text: String,
    pieces: Vec<Piece>,
}

#[derive(Clone, Debug, PartialEq, Eq)]
enum Piece {
    Text(String),
    /// A part of the body, from 0 on.
    Part(u32),
}

impl Template {
    /// Reads what a rule with so many parts becomes.
    pub(super) fn parse(text: &str, parts: usize) -> Result<Self, RuleFault> {
        let mut pieces = Vec::new();
        let mut rest = text;
        while let Some((before, behind)) = rest.split_once(REFERENCE) {
            pieces.push(Piece::Text(before.to_owned()));
            let digits = behind.bytes().take_while(u8::is_ascii_digit).count();
            rest = match part_number(&behind[..digits], parts) {
                Some((number, length)) => {
                    pieces.push(Piece::Part(number - 1));
                    &behind[length..]
                }
                None => {
                    pieces.push(Piece::Text(REFERENCE.to_string()));
                    behind.strip_prefix(REFERENCE).ok_or_else(|| wrong(behind, digits, parts))?
                }
            };
        }
        pieces.push(Piece::Text(rest.to_owned()));
        Ok(Self { text: text.to_owned(), pieces })
    }

    /// The translation, given those of the parts.
    pub(super) fn filled(&self, part: impl Fn(u32) -> String) -> String {
        let pieces = self.pieces.iter().map(|piece| match piece {
            Piece::Text(text) => text.clone(),
            Piece::Part(number) => part(*number),
        });
        pieces.collect()
    }
}

/// The number of a part that digits begin with, the longest, and how many digits it has: of one part `$10` is the part and a 0.
fn part_number(digits: &str, parts: usize) -> Option<(u32, usize)> {
    let numbers = (1..=digits.len()).rev().filter_map(|length| Some((digits[..length].parse::<u32>().ok()?, length)));
    numbers.into_iter().find(|(number, _)| (1..=parts as u32).contains(number))
}

/// That no part stands behind a `$`.
fn wrong(behind: &str, digits: usize, parts: usize) -> RuleFault {
    let shown = if digits == 0 { behind.chars().next().map_or(0, char::len_utf8) } else { digits };
    RuleFault::Reference { found: format!("{REFERENCE}{}", &behind[..shown]), parts }
}

impl Display for Template {
    fn fmt(&self, formatter: &mut Formatter) -> std::fmt::Result {
        write!(formatter, "{}", quoted(&self.text))
    }
}
