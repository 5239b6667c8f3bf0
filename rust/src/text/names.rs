//! Grammars with names.

use super::scan::{is_bare, quoted, GRAMMAR};
use super::source::Source;
use crate::marked::unpacked;
use crate::{Body, Grammar, Item, MarkedGrammar, Office, OfficeRule, PackedGrammar, Reading, Refusal, Tree};

/// The lines that number the symbols and the words begin so, and the line that says that all rules are an office's is so.
pub(super) const SYMBOLS: &str = "symbols";
pub(super) const WORDS: &str = "words";
pub(super) const OFFICE: &str = "office";
/// What stands behind the weight of a rule that is marked.
pub(super) const HELPER: &str = "helper";

/// A grammar with the names of its symbols and words. [`text`](crate::text) says how it is written.
///
/// ```
/// use spireyerba::text::NamedGrammar;
///
/// let doors = NamedGrammar::parse("Entry -> \"door\" Number [1]\nNumber -> \"four\" | \"five\" [2]")?;
/// assert_eq!(doors.rule_text(0), "Entry -> \"door\" Number [1]");
/// assert_eq!(doors.rule_text(2), "Number -> \"five\" [2]");
/// assert_eq!(NamedGrammar::parse(&doors.to_text())?, doors);
/// // in normal form it has one symbol and one rule more, for the word
/// assert_eq!((doors.grammar.symbols, doors.grammar.rules.len()), (3, 4));
/// # Ok::<(), spireyerba::Error>(())
/// ```
#[derive(Clone, Debug, PartialEq, Eq)]
pub struct NamedGrammar {
    /// The grammar in numbers, in normal form.
    pub grammar: Grammar,
    /// The name of each symbol, which has no blank and none of `" # | [ ] ( ) ? * + ;`, but that a helper of the text's rules is
    /// called what it stands for.
    pub symbols: Vec<String>,
    /// Each word.
    pub words: Vec<String>,
    marks: Option<Marks>,
    /// The rules as the text has them, where that says more than the grammar.
    pub(super) source: Option<Box<Source>>,
}

/// The marks of a grammar's rules.
#[derive(Clone, Debug, PartialEq, Eq)]
struct Marks {
    of_rules: Vec<bool>,
    /// The rules as an office writes them, if they are what it wrote.
    office: Option<Office>,
}

impl NamedGrammar {
    /// A grammar without marks.
    pub fn new(grammar: Grammar, symbols: Vec<String>, words: Vec<String>) -> Self {
        Self { grammar, symbols, words, marks: None, source: None }
    }

    /// A grammar with marks. If it is one that an office's rules become, names of helpers may be missing, and are not kept.
    pub fn marked(marked: MarkedGrammar, mut symbols: Vec<String>, words: Vec<String>) -> Self {
        let office = marked.to_office();
        if let Some(office) = &office {
            symbols.truncate(office.symbols as usize);
            let helpers = office.symbols..marked.grammar.symbols;
            let names: Vec<String> =
                helpers.map(|helper| stands_for(&marked.grammar, helper, &symbols, &words)).collect();
            symbols.extend(names);
        }
        let MarkedGrammar { grammar, marks } = marked;
        Self { grammar, symbols, words, marks: Some(Marks { of_rules: marks, office }), source: None }
    }

    /// The grammar of a text that says more than it.
    pub(super) fn with_source(mut self, source: Source) -> Self {
        self.source = Some(Box::new(source));
        self
    }

    /// A grammar that has no names, with `S0`, `S1` and so on for its symbols and `w0`, `w1` and so on for its words.
    pub fn numbered(grammar: Grammar) -> Self {
        let [symbols, words] = numbers(&grammar);
        Self::new(grammar, symbols, words)
    }

    /// A block, with or without marks, which has no names either, or refuses it as
    /// [`grammar_to_sheet`](crate::services::grammar_to_sheet) does.
    pub fn from_block(block: &[u8]) -> Result<Self, Refusal> {
        let (grammar, marks) = unpacked(block)?;
        let [symbols, words] = numbers(&grammar);
        Ok(match marks {
            None => Self::new(grammar, symbols, words),
            Some(marks) => Self::marked(MarkedGrammar { grammar, marks }, symbols, words),
        })
    }

    /// Packs the grammar, with its marks if it has any, or refuses it as [`Grammar::to_block`] does.
    pub fn to_block(&self) -> Result<Vec<u8>, Refusal> {
        match self.marks() {
            None => self.grammar.to_block(),
            Some(marks) => MarkedGrammar { grammar: self.grammar.clone(), marks: marks.to_vec() }.to_block(),
        }
    }

    /// The grammar packed for many calls, with its marks if it has any, or refused as [`Self::to_block`] refuses it.
    pub fn packed(&self) -> Result<PackedGrammar, Refusal> {
        Ok(PackedGrammar::of_accepted(self.grammar.clone(), self.to_block()?))
    }

    /// Of each rule whether it is marked, if the grammar has marks.
    pub fn marks(&self) -> Option<&[bool]> {
        self.marks.as_ref().map(|marks| marks.of_rules.as_slice())
    }

    /// Whether a rule is marked.
    pub fn is_marked(&self, rule: u32) -> bool {
        self.marks().is_some_and(|marks| marks[rule as usize])
    }

    /// The rules as an office writes them, if they are what the grammar was made from.
    pub fn office(&self) -> Option<&Office> {
        self.marks.as_ref().and_then(|marks| marks.office.as_ref())
    }

    /// How many symbols the grammar's text has: all, but for the helpers of its rules.
    pub fn own_symbols(&self) -> u32 {
        match &self.source {
            Some(source) => source.symbols,
            None => self.office().map_or(self.grammar.symbols, |office| office.symbols),
        }
    }

    /// How many rules the grammar's text has: each alternative is one, and those of helpers are none.
    pub fn own_rules(&self) -> u32 {
        match &self.source {
            Some(source) => source.rules.len() as u32,
            None => self.office().map_or(self.grammar.rules.len(), |office| office.rules.len()) as u32,
        }
    }

    /// The symbol that a rule of the text derives from.
    pub fn head(&self, rule: u32) -> u32 {
        match &self.source {
            Some(source) => source.rules[rule as usize].head,
            None => self.grammar.rules[rule as usize].head,
        }
    }

    /// The text, from which [`parse`](Self::parse) reads this grammar again. Lists of symbols and of words stand in it only
    /// if they are not numbered as they are met, or some have no rules.
    pub fn to_text(&self) -> String {
        let mut text = String::new();
        let [symbols, words] = self.as_met();
        let has_rule = |symbol| (0..self.own_rules()).any(|rule| self.head(rule) == symbol);
        if !symbols.into_iter().eq(0..self.own_symbols()) || !(0..self.own_symbols()).all(has_rule) {
            text += &format!("{SYMBOLS} {}\n", self.symbols[..self.own_symbols() as usize].join(" "));
        }
        if !words.into_iter().eq(0..self.grammar.words) {
            let words: Vec<String> = self.words.iter().map(|word| quoted(word)).collect();
            text += &format!("{WORDS} {}\n", words.join(" "));
        }
        if self.office().is_some_and(|office| office.rules.iter().all(|rule| rule.normal_body().is_some())) {
            text += &format!("{OFFICE}\n");
        }
        for rule in 0..self.own_rules() {
            text += &self.rule_text(rule);
            text.push('\n');
        }
        text
    }

    /// One rule of the text as it is written there.
    pub fn rule_text(&self, rule: u32) -> String {
        if let Some(source) = &self.source {
            let rule = &source.rules[rule as usize];
            return format!("{} -> {}", self.symbol(rule.head), rule.text);
        }
        let OfficeRule { head, weight, items } = self.written(rule);
        let mut text = format!("{} ->", self.symbol(head));
        for item in items {
            text.push(' ');
            match item {
                Item::Symbol(symbol) => text += self.symbol(symbol),
                Item::Word(word) => text += &quoted(self.word(word)),
            }
        }
        match (weight, self.is_marked(rule)) {
            (0, false) => text,
            (0, true) => format!("{text} [{HELPER}]"),
            (_, false) => format!("{text} [{weight}]"),
            (_, true) => format!("{text} [{weight} {HELPER}]"),
        }
    }

    /// A rule as it is written.
    fn written(&self, rule: u32) -> OfficeRule {
        match self.office().and_then(|office| office.rules.get(rule as usize)) {
            Some(rule) => rule.clone(),
            None => self.grammar.rules[rule as usize].into(),
        }
    }

    /// A symbol's name.
    pub fn symbol(&self, symbol: u32) -> &str {
        &self.symbols[symbol as usize]
    }

    /// A word.
    pub fn word(&self, word: u32) -> &str {
        &self.words[word as usize]
    }

    /// The words of a reading in their order, by number.
    pub fn words_of<'a>(&'a self, reading: &'a Reading) -> impl Iterator<Item = u32> + 'a {
        self.grammar.words_of(reading)
    }

    /// The words of a reading in their order, with a blank between two.
    pub fn sentence(&self, reading: &Reading) -> String {
        self.string(&self.words_of(reading).collect::<Vec<u32>>())
    }

    /// Some words, with a blank between two.
    pub fn string(&self, words: &[u32]) -> String {
        let words: Vec<&str> = words.iter().map(|word| self.word(*word)).collect();
        words.join(" ")
    }

    /// A reading as the lister prints it: without the nodes of marked rules.
    pub fn shown(&self, reading: &Reading) -> Reading {
        let walk = reading.walk.iter().copied().filter(|&rule| !self.is_marked(rule)).collect();
        Reading { weight: reading.weight, walk, path: reading.path.clone() }
    }

    /// The tree of a reading's rule numbers as the text has the rules, without the nodes of helpers below its root; nothing if
    /// they are not a walk by this grammar's rules.
    pub fn tree(&self, reading: &Reading) -> Option<Tree> {
        let tree = Tree::from_walk(&self.grammar, &reading.walk)?;
        match (&self.source, self.marks()) {
            (Some(source), _) => source.tree(tree),
            (None, Some(marks)) => Some(tree.without(marks)),
            (None, None) => Some(tree),
        }
    }

    /// The symbols and the words in the order in which the rules mention them.
    fn as_met(&self) -> [Vec<u32>; 2] {
        if let Some(source) = &self.source {
            return source.met.clone();
        }
        let [mut symbols, mut words] = [Vec::new(), Vec::new()];
        let meet = |list: &mut Vec<u32>, number| {
            if !list.contains(&number) {
                list.push(number);
            }
        };
        for OfficeRule { head, items, .. } in (0..self.own_rules()).map(|rule| self.written(rule)) {
            meet(&mut symbols, head);
            items.into_iter().for_each(|item| match item {
                Item::Symbol(symbol) => meet(&mut symbols, symbol),
                Item::Word(word) => meet(&mut words, word),
            });
        }
        [symbols, words]
    }

    /// Whether a name can be a symbol's in a text.
    pub fn is_symbol_name(name: &str) -> bool {
        is_bare(name, &GRAMMAR) && !is_quoted_otherwise(name)
    }
}

/// Whether a name begins as a word does in quotes that are not those of texts.
pub(super) fn is_quoted_otherwise(name: &str) -> bool {
    name.starts_with(['\'', '`', '‘', '’', '‚', '‛', '“', '”', '„', '‟', '«', '»', '‹', '›', '＂'])
}

/// The names of symbols and words that have none.
fn numbers(grammar: &Grammar) -> [Vec<String>; 2] {
    [("S", grammar.symbols), ("w", grammar.words)]
        .map(|(letter, count)| (0..count).map(|number| format!("{letter}{number}")).collect())
}

/// What a symbol stands for, if those with names are no helpers and each helper has one rule.
fn stands_for(grammar: &Grammar, symbol: u32, symbols: &[String], words: &[String]) -> String {
    let rule = grammar.rules.iter().find(|rule| rule.head == symbol);
    match (symbols.get(symbol as usize), rule.map(|rule| rule.body)) {
        (Some(name), _) => name.clone(),
        (None, Some(Body::Word(word))) => quoted(&words[word as usize]),
        (None, Some(Body::Pair(first, rest))) => {
            [first, rest].map(|part| stands_for(grammar, part, symbols, words)).join(" ")
        }
        (None, None) => unreachable!("each helper has a rule"),
    }
}
