//! What a grammar takes of 32 symbols and 256 rules.

use crate::limits::{MAX_RULES, MAX_SYMBOLS};
use crate::{Item, Office, OfficeRule};
use std::collections::HashSet;
use std::fmt::{Display, Formatter};

/// The rules that are named as the dearest, at most.
const DEAREST: usize = 3;

/// What a grammar that does not fit would take.
#[derive(Clone, Debug, Default, PartialEq, Eq)]
pub struct Room {
    /// The symbols of the text, those for groups and repetitions, for words in bodies of several items, and for joints, which
    /// stand for the end of a longer body.
    pub symbols: [u32; 4],
    /// The rules of the same.
    pub rules: [u32; 4],
    /// The lines of the rules for which most was added, and how many symbols or rules that is of each.
    pub dearest: Vec<(usize, u32)>,
}

/// What was added for a rule of the text: the line that it stands in, and a symbol of what kind, if it is one.
pub(super) struct Added {
    pub(super) line: usize,
    pub(super) kind: Option<usize>,
}

/// The lines of the text for which rules were made.
pub(super) struct Lines {
    /// Of each rule the line in which its items stand.
    pub(super) of_items: Vec<usize>,
    /// A line for each rule that a rule of the text becomes beside the first.
    pub(super) of_rules: Vec<usize>,
}

pub(super) const GROUPS: usize = 1;
const WORDS: usize = 2;
pub(super) const JOINTS: usize = 3;

impl Room {
    /// What an office's rules take of which so many symbols are the text's, the symbols behind them are of these kinds, and the rules
    /// are made for these lines; nothing if it fits.
    pub(super) fn passed(office: &Office, own: [u32; 2], kinds: &[usize], lines: &Lines) -> Option<Self> {
        let mut room = Self { symbols: [own[0], 0, 0, 0], rules: [own[1], 0, 0, 0], dearest: Vec::new() };
        kinds.iter().for_each(|&kind| room.symbols[kind] += 1);
        let added = library_helpers(office, &lines.of_items);
        for kind in added.iter().filter_map(|added| added.kind) {
            room.symbols[kind] += 1;
            room.rules[kind] += 1;
        }
        let by_kind = |rule: &OfficeRule| rule.head.checked_sub(own[0]).map_or(0, |helper| kinds[helper as usize]);
        let of_kind = |wanted| office.rules.iter().filter(|rule| by_kind(rule) == wanted).count() as u32;
        room.rules[JOINTS] += of_kind(JOINTS);
        room.rules[GROUPS] += of_kind(GROUPS) + of_kind(0).saturating_sub(own[1]);
        let is_passed = room.needs()[0] > MAX_SYMBOLS || room.needs()[1] > MAX_RULES;
        is_passed.then(|| {
            let made = office.rules.iter().zip(&lines.of_items);
            let others: Vec<&usize> = match room.needs()[0] > MAX_SYMBOLS {
                true => {
                    let mut known = HashSet::new();
                    let is_first = |rule: &OfficeRule| by_kind(rule) > 0 && known.insert(rule.head);
                    lines_of(made, is_first).collect()
                }
                false => lines_of(made, |rule| by_kind(rule) == JOINTS).chain(&lines.of_rules).collect(),
            };
            let others = others.into_iter().map(|&line| Added { line, kind: None });
            room.dearest = dearest(others.chain(added));
            room
        })
    }

    /// The symbols and the rules in all.
    fn needs(&self) -> [u32; 2] {
        [&self.symbols, &self.rules].map(|counts| counts.iter().sum())
    }
}

/// The lines of some rules.
fn lines_of<'a>(
    made: impl Iterator<Item = (&'a OfficeRule, &'a usize)>,
    mut is_one: impl FnMut(&OfficeRule) -> bool,
) -> impl Iterator<Item = &'a usize> {
    made.filter(move |(rule, _)| is_one(rule)).map(|(_, line)| line)
}

/// What the library adds: a symbol and a rule for each word in a body of several items, and for each item between the first and
/// the last.
fn library_helpers(office: &Office, lines: &[usize]) -> Vec<Added> {
    let (mut known, mut added) = (HashSet::new(), Vec::new());
    for (OfficeRule { items, .. }, &line) in office.rules.iter().zip(lines).filter(|(rule, _)| rule.items.len() > 1) {
        let words = items.iter().filter(|item| matches!(item, Item::Word(_)) && known.insert(**item));
        added.extend(words.map(|_| Added { line, kind: Some(WORDS) }));
        added.extend((2..items.len()).map(|_| Added { line, kind: Some(JOINTS) }));
    }
    added
}

/// The lines for which most was added, and how much.
fn dearest(added: impl Iterator<Item = Added>) -> Vec<(usize, u32)> {
    let mut counts = std::collections::BTreeMap::new();
    added.for_each(|added| *counts.entry(added.line).or_insert(0) += 1);
    let mut counts: Vec<(usize, u32)> = counts.into_iter().collect();
    counts.sort_by_key(|&(line, count)| (std::cmp::Reverse(count), line));
    counts.truncate(DEAREST);
    counts
}

/// So much of each kind.
fn parts(counts: [u32; 4]) -> String {
    let kinds =
        ["yours", "for groups, repetitions and parts left out", "for words in bodies of several items", "joints"];
    let parts = counts.iter().zip(kinds).filter(|(count, _)| **count > 0);
    parts.map(|(count, kind)| format!("{count} {kind}")).collect::<Vec<_>>().join(", ")
}

impl Display for Room {
    fn fmt(&self, formatter: &mut Formatter) -> std::fmt::Result {
        let [symbols, rules] = self.needs();
        let (need, what, limit, counts) = match symbols > MAX_SYMBOLS {
            true => (symbols, "symbols", MAX_SYMBOLS, self.symbols),
            false => (rules, "rules", MAX_RULES, self.rules),
        };
        write!(formatter, "the grammar needs {need} {what} and {limit} fit: {}", parts(counts))?;
        if !self.dearest.is_empty() {
            let lines: Vec<String> =
                self.dearest.iter().map(|(line, count)| format!("line {line} ({count})")).collect();
            write!(formatter, "; most is added for {}", lines.join(", "))?;
        }
        let [_, _, words, joints] = self.symbols;
        match symbols > MAX_SYMBOLS {
            true if joints > words => write!(
                formatter,
                ". A head of its own for the end of a long body, as in Entry -> Name Rest, takes one in place of a joint for each way \
                 to take that end"
            ),
            true => write!(
                formatter,
                ". One symbol for all words that may stand in a place, as in Metal -> \"steel\" | \"zinc\", takes one in place of \
                 one for each"
            ),
            false => write!(
                formatter,
                ". A part that may be left out doubles the rules of its body, and a symbol alone has as many as that symbol: \
                 give parts heads of their own"
            ),
        }
    }
}
