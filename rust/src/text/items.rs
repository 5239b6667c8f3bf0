//! A line of text cut at its blanks.

use super::Fault;
use crate::{Error, Position};

/// A line with its number.
#[derive(Clone, Copy)]
pub(super) struct Line<'a> {
    pub(super) text: &'a str,
    pub(super) number: usize,
}

/// The lines of a text.
pub(super) fn lines(text: &str) -> impl Iterator<Item = Line<'_>> + Clone {
    text.lines().enumerate().map(|(before, text)| Line { text, number: before + 1 })
}

/// Where a text ends: its last line.
pub(super) fn end_of(text: &str) -> Position {
    Position { line: text.lines().count().max(1), column: 1 }
}

impl<'a> Line<'a> {
    /// Its pieces without blanks.
    pub(super) fn items(self) -> impl Iterator<Item = Item<'a>> {
        // where the last item stands, so that a long line is counted once
        let (mut offset, mut column) = (0, 1);
        self.text.split_whitespace().map(move |text| {
            let next = text.as_ptr() as usize - self.text.as_ptr() as usize;
            column += self.text[offset..next].chars().count();
            offset = next;
            Item { text, position: Position { line: self.number, column } }
        })
    }

    /// A fault where the line ends.
    pub(super) fn ends(self, wanted: &'static str) -> Error {
        let position = Position { line: self.number, column: self.text.trim_end().chars().count() + 1 };
        Error::at(position, Fault::Expected { wanted, found: None })
    }

    /// Where the line begins.
    pub(super) fn position(self) -> Position {
        Position { line: self.number, column: 1 }
    }
}

/// A piece of a line without blanks.
#[derive(Clone, Copy)]
pub(super) struct Item<'a> {
    pub(super) text: &'a str,
    /// Where it stands.
    pub(super) position: Position,
}

impl Item<'_> {
    pub(super) fn fault(&self, fault: Fault) -> Error {
        Error::at(self.position, fault)
    }

    /// A whole number.
    pub(super) fn count(&self) -> Result<usize, Error> {
        self.text.parse().map_err(|_| self.fault(Fault::Number(self.text.to_owned())))
    }

    /// A number that is not infinite.
    pub(super) fn finite(&self) -> Result<f64, Error> {
        let number = self.text.parse().ok().filter(|number: &f64| number.is_finite());
        number.ok_or_else(|| self.fault(Fault::Real(self.text.to_owned())))
    }

    /// A likelihood from 0 to the whole.
    pub(super) fn posterior(&self) -> Result<f64, Error> {
        let number = self.text.parse().ok().filter(|number: &f64| number.is_finite() && *number >= 0.0);
        number.ok_or_else(|| self.fault(Fault::Posterior(self.text.to_owned())))
    }

    /// Whether it is a number as people write them, and no word such as `inf`.
    pub(super) fn is_number(&self) -> bool {
        self.text.contains(|letter: char| letter.is_ascii_digit()) && self.text.parse::<f64>().is_ok()
    }
}
