//! The text of shares.

use super::reading::items;
use super::scan::digits;
use super::{without_mark, Fault, NamedGrammar, RuleFault};
use crate::limits::MAX_SHARE;
use crate::{Error, Position};

impl NamedGrammar {
    /// Reads the shares of the grammar's rules: whole numbers from 1 to 1,024 in the order of the rules, with blanks or ends of
    /// lines between them. Those of the helpers of an office's rules may be left out, and are then 1,024 of 1,024. Where a body is
    /// one symbol alone, the share of what the rule becomes is the product of both, which has to be a whole number.
    ///
    /// ```
    /// use spireyerba::text::NamedGrammar;
    ///
    /// let doors = NamedGrammar::parse("Entry -> \"door\" Number\nNumber -> \"four\" | \"five\"")?;
    /// let shares = doors.parse_shares("1024  # of all entries\n768 256  # of numbers\n")?;
    /// assert_eq!(shares, [1024, 768, 256, 1024]);
    /// let heard = doors.parse_utterance("door 3; five 5")?;
    /// let reading = doors.grammar.list(&heard, 1)?.remove(0);
    /// assert_eq!(doors.grammar.chance(&heard, &reading, &shares)?, 0.25);
    /// assert_eq!(doors.parse_shares("1024 768 0").unwrap_err().number(), Some(61));
    /// # Ok::<(), spireyerba::Error>(())
    /// ```
    pub fn parse_shares(&self, text: &str) -> Result<Vec<u32>, Error> {
        let (own, all) = (self.own_rules() as usize, self.grammar.rules.len());
        let (mut shares, mut extra) = (Vec::new(), None);
        for item in items(text) {
            let number = digits(item.text).ok_or_else(|| item.fault(Fault::Number(item.text.to_owned())))?;
            let share = number.filter(|share| (1..=MAX_SHARE).contains(share));
            shares.push(share.ok_or_else(|| item.fault(Fault::Share(item.text.to_owned())))?);
            if shares.len() == all + 1 {
                extra = Some(item);
            }
        }
        let wrong = Fault::Shares { found: shares.len(), rules: own };
        match (shares.len(), extra) {
            (_, Some(extra)) => return Err(extra.fault(wrong)),
            (found, None) if found != own && (found != all || self.is_written_out()) => {
                return Err(Error::at(end_of(text), wrong));
            }
            _ if self.is_written_out() => {
                return (0..all as u32).map(|rule| self.share_of(rule, &shares, end_of(text))).collect();
            }
            _ => shares.resize(all, MAX_SHARE),
        }
        Ok(shares)
    }

    /// The share of a rule of the grammar, given those of the rules of the text.
    fn share_of(&self, rule: u32, shares: &[u32], end: Position) -> Result<u32, Error> {
        let rules = self.rules_shown(rule);
        let share = rules.iter().try_fold(MAX_SHARE, |product, rule| {
            let product = product * shares[*rule as usize];
            product.is_multiple_of(MAX_SHARE).then_some(product / MAX_SHARE)
        });
        share.ok_or_else(|| {
            let rules = rules.iter().map(|rule| self.rule_text(*rule)).collect();
            Error::at(end, RuleFault::SharesOfOne { rules }.into())
        })
    }
}

/// The end of a text's last line.
fn end_of(text: &str) -> Position {
    let last = without_mark(text).lines().enumerate().last();
    let (before, line) = last.unwrap_or_default();
    Position { line: before + 1, column: line.chars().count() + 1 }
}
