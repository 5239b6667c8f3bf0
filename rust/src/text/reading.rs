//! The text of readings, and sheets that are written as numbers.

use super::scan::digits;
use super::{without_mark, Fault, NamedGrammar};
use crate::{Body, Error, Position, Reading, Rule};

/// What follows it in a line is a comment.
const COMMENT: char = '#';
/// What stands between the rules of a graph's reading and its edges.
const BAR: &str = "|";

/// The lines that the lister prints: the number found, then rank, weight and node rule numbers of each. Of a word graph it
/// prints the same, without the numbers of edges.
///
/// ```
/// use spireyerba::{text::print_list, Reading};
///
/// let readings = [Reading::of_slots(2, vec![0, 1, 1]), Reading::of_slots(4, vec![1])];
/// assert_eq!(print_list(&readings), "readings 2\n1 2 0 1 1\n2 4 1\n");
/// ```
pub fn print_list<'a>(readings: impl IntoIterator<Item = &'a Reading>) -> String {
    ranked(readings.into_iter().map(rules_text).collect())
}

/// The number of lines, and each behind its rank.
pub(super) fn ranked(lines: Vec<String>) -> String {
    let ranked = lines.iter().enumerate().map(|(before, line)| format!("{} {line}\n", before + 1));
    format!("readings {}\n{}", lines.len(), ranked.collect::<String>())
}

/// The text of a reading: its weight and the rule number of each node; of a word graph's also a bar and the numbers of its edges.
pub fn reading_text(reading: &Reading) -> String {
    with_path(rules_text(reading), reading)
}

/// The text of a reading of which that of its weight and rules is given.
pub(super) fn with_path(rules: String, reading: &Reading) -> String {
    match &reading.path {
        None => rules + "\n",
        Some(path) => format!("{rules} {BAR} {}\n", numbers_text(path)),
    }
}

fn rules_text(reading: &Reading) -> String {
    format!("{} {}", reading.weight, numbers_text(&reading.walk))
}

fn numbers_text(numbers: &[u32]) -> String {
    numbers.iter().map(u32::to_string).collect::<Vec<_>>().join(" ")
}

/// Reads the text of a reading, which has a path if it has a bar. Its numbers are as good as any others: only
/// [`check`](crate::services::check) knows.
///
/// ```
/// use spireyerba::{text::parse_reading, Reading};
///
/// assert_eq!(parse_reading("2 0 1 1")?, Reading::of_slots(2, vec![0, 1, 1]));
/// assert_eq!(parse_reading("2 0 1 1 | 3 4")?, Reading::of_path(2, vec![0, 1, 1], vec![3, 4]));
/// # Ok::<(), spireyerba::Error>(())
/// ```
pub fn parse_reading(text: &str) -> Result<Reading, Error> {
    reading_of(parse_lists(text, 2, |_, item| whole_number(item))?)
}

/// The reading of the numbers before a bar and behind it.
pub(super) fn reading_of(lists: Vec<Vec<u32>>) -> Result<Reading, Error> {
    let mut lists = lists.into_iter();
    let numbers = lists.next().unwrap_or_default();
    match numbers.split_first() {
        Some((&weight, walk)) => Ok(Reading { weight, walk: walk.to_vec(), path: lists.next() }),
        None => {
            let fault = Fault::Expected { wanted: "a weight", found: None };
            Err(Error::at(Position { line: 1, column: 1 }, fault))
        }
    }
}

/// Reads a sheet that is written as numbers.
pub fn parse_sheet(text: &str) -> Result<Vec<u32>, Error> {
    Ok(parse_lists(text, 1, |_, item| whole_number(item))?.remove(0))
}

pub(super) fn whole_number(item: &str) -> Result<u32, Fault> {
    digits(item).flatten().ok_or_else(|| Fault::Number(item.to_owned()))
}

/// Reads lists of numbers with bars between them, at least one and at most so many. What an item is depends on how many lists
/// there are and how many numbers the last has.
pub(super) fn parse_lists(
    text: &str,
    most: usize,
    number: impl Fn([usize; 2], &str) -> Result<u32, Fault>,
) -> Result<Vec<Vec<u32>>, Error> {
    let mut lists = vec![Vec::new()];
    for item in items(text) {
        if item.text == BAR && lists.len() < most {
            lists.push(Vec::new());
            continue;
        }
        let place = [lists.len(), lists.last().map_or(0, Vec::len)];
        let number = number(place, item.text).map_err(|fault| item.fault(fault))?;
        lists.last_mut().expect("one list at least").push(number);
    }
    Ok(lists)
}

/// A piece of a text between blanks.
pub(super) struct Item<'a> {
    pub(super) text: &'a str,
    line: &'a str,
    /// The lines before that one.
    before: usize,
}

impl Item<'_> {
    /// A fault at the item.
    pub(super) fn fault(&self, fault: Fault) -> Error {
        let column = self.line[..self.text.as_ptr() as usize - self.line.as_ptr() as usize].chars().count() + 1;
        Error::at(Position { line: self.before + 1, column }, fault)
    }
}

/// The items of a text, without comments.
pub(super) fn items(text: &str) -> impl Iterator<Item = Item<'_>> {
    without_mark(text).lines().enumerate().flat_map(|(before, line)| {
        let (said, _) = line.split_once(COMMENT).unwrap_or((line, ""));
        said.split_whitespace().map(move |text| Item { text, line, before })
    })
}

impl NamedGrammar {
    /// A reading as its text has it: under an office's rules without the nodes of helpers.
    pub fn written_reading(&self, reading: &Reading) -> Reading {
        match self.office() {
            Some(_) => self.shown(reading),
            None => reading.clone(),
        }
    }

    /// The reading that is written so: under an office's rules each helper has one rule, and where its node is left out it is
    /// put in. The numbers are as good as any others: only [`check`](crate::services::check) knows.
    ///
    /// ```
    /// use spireyerba::text::{parse_reading, reading_text, NamedGrammar};
    ///
    /// let doors = NamedGrammar::parse("Entry -> \"door\" Number [1]\nNumber -> \"four\" | \"five\" [2]")?;
    /// let found = doors.grammar.list(&doors.parse_utterance("door 3; five 5")?, 1)?.remove(0);
    /// assert_eq!(found.walk, [0, 3, 2]);
    /// let text = reading_text(&doors.written_reading(&found));
    /// assert_eq!(text, "11 0 2\n");
    /// assert_eq!(doors.whole_reading(&parse_reading(&text)?), found);
    /// # Ok::<(), spireyerba::Error>(())
    /// ```
    pub fn whole_reading(&self, written: &Reading) -> Reading {
        let Some(office) = self.office() else { return written.clone() };
        let mut numbers = written.walk.iter().copied().peekable();
        let (mut walk, mut heads) = (Vec::new(), vec![0]);
        while let Some(head) = heads.pop() {
            let helper = u32::checked_sub(head, office.symbols).map(|helper| office.rules.len() as u32 + helper);
            // a helper's node may be written all the same
            let written = numbers.next_if(|number| helper.is_none_or(|helper| helper == *number));
            let Some(rule) = helper.or(written) else { break };
            walk.push(rule);
            if let Some(Rule { body: Body::Pair(first, second), .. }) = self.grammar.rules.get(rule as usize) {
                heads.extend([second, first]);
            }
        }
        walk.extend(numbers);
        Reading { weight: written.weight, walk, path: written.path.clone() }
    }
}
