//! Readings under a grammar whose text has fewer rules than it: what rules are called there.

use super::reading::{parse_lists, print_list, ranked, reading_of, reading_text, whole_number, with_path};
use super::{Fault, NamedGrammar};
use crate::{Error, Reading};

/// What stands between the number of a rule of the text and which of those it is that the rule becomes.
const POINT: char = '.';

impl NamedGrammar {
    /// What a rule of the grammar is called in a reading's text: its number, and where a rule of the text is written out as
    /// several, the number of that one, a point, and which of them it is, from 1 on.
    ///
    /// ```
    /// use spireyerba::text::NamedGrammar;
    ///
    /// let doors = NamedGrammar::parse("Name -> \"door\"? Number\nNumber -> \"four\"")?;
    /// let names: Vec<String> = (0..3).map(|rule| doors.rule_name(rule)).collect();
    /// assert_eq!(names, ["0.1", "0.2", "1"]);
    /// # Ok::<(), spireyerba::Error>(())
    /// ```
    pub fn rule_name(&self, rule: u32) -> String {
        let Some(behind) = self.rule_behind(rule).filter(|_| self.is_written_out()) else { return rule.to_string() };
        let made: Vec<u32> = self.made_for(behind).collect();
        match (made.len(), made.iter().position(|made| *made == rule)) {
            (2.., Some(place)) => format!("{behind}{POINT}{}", place + 1),
            _ => behind.to_string(),
        }
    }

    /// The rules of the grammar that were made for a rule of the text.
    fn made_for(&self, behind: u32) -> impl Iterator<Item = u32> + '_ {
        (0..self.grammar.rules.len() as u32).filter(move |rule| self.rule_behind(*rule) == Some(behind))
    }

    /// The lines that the lister prints, with the rules as they are called in the text of a reading.
    pub fn print_list<'a>(&self, readings: impl IntoIterator<Item = &'a Reading>) -> String {
        let shown: Vec<Reading> = readings.into_iter().map(|reading| self.shown(reading)).collect();
        match self.is_written_out() {
            true => ranked(shown.iter().map(|reading| self.rules_text(reading)).collect()),
            false => print_list(&shown),
        }
    }

    fn rules_text(&self, reading: &Reading) -> String {
        let names = reading.walk.iter().map(|rule| format!(" {}", self.rule_name(*rule)));
        format!("{}{}", reading.weight, names.collect::<String>())
    }

    /// The text of a reading, from which [`parse_reading`](Self::parse_reading) reads it again.
    pub fn reading_text(&self, reading: &Reading) -> String {
        let written = self.written_reading(reading);
        match self.is_written_out() {
            true => with_path(self.rules_text(&written), reading),
            false => reading_text(&written),
        }
    }

    /// Reads the text of a reading of slots or of a word graph, in which the nodes of helpers may be left out that the library
    /// added. The rules are as good as any others: only [`check`](crate::services::check) knows.
    ///
    /// ```
    /// use spireyerba::text::NamedGrammar;
    ///
    /// let doors = NamedGrammar::parse("Name -> \"door\"?3 Number\nNumber -> \"four\"")?;
    /// let found = doors.grammar.list(&doors.parse_utterance("four 5")?, 1)?.remove(0);
    /// assert_eq!(doors.reading_text(&found), "8 0.2\n");
    /// assert_eq!(doors.parse_reading("8 0.2", false)?, found);
    /// # Ok::<(), spireyerba::Error>(())
    /// ```
    pub fn parse_reading(&self, text: &str, of_graph: bool) -> Result<Reading, Error> {
        let is_written_out = self.is_written_out();
        let lists = parse_lists(text, if of_graph { 2 } else { 1 }, |place, item| match place {
            [1, before] if is_written_out && before > 0 => self.rule_called(item),
            _ => whole_number(item),
        });
        let mut reading = reading_of(lists?)?;
        if of_graph {
            reading.path.get_or_insert_default();
        }
        Ok(self.whole_reading(&reading))
    }

    /// The rule that is called so.
    fn rule_called(&self, name: &str) -> Result<u32, Fault> {
        let wrong = || Fault::Expected { wanted: "a rule as `list --rules` prints it", found: Some(name.to_owned()) };
        let (behind, place) = name.split_once(POINT).map_or((name, None), |(behind, place)| (behind, Some(place)));
        let made: Vec<u32> = self.made_for(whole_number(behind).map_err(|_| wrong())?).collect();
        let place = match place {
            Some(place) => whole_number(place).map_err(|_| wrong())? as usize,
            None if made.len() == 1 => 1,
            None => return Err(wrong()),
        };
        place.checked_sub(1).and_then(|place| made.get(place)).copied().ok_or_else(wrong)
    }
}
