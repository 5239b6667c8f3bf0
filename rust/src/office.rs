//! Grammars as offices write them.

use crate::limits::GRAMMAR_BLOCK_MAX;
use crate::services::office_to_block;
use crate::{Body, MarkedGrammar, Refusal, Rule};

/// An item of a body.
#[derive(Clone, Copy, Debug, PartialEq, Eq, Hash)]
pub enum Item {
    /// A symbol.
    Symbol(u32),
    /// A word.
    Word(u32),
}

/// A rule as an office writes it: its body is one word, or two to six items.
#[derive(Clone, Debug, PartialEq, Eq, Hash)]
pub struct OfficeRule {
    /// The symbol that the rule derives from.
    pub head: u32,
    /// What its use costs.
    pub weight: u32,
    /// What it derives.
    pub items: Vec<Item>,
}

impl OfficeRule {
    /// The body, if it is one of normal form: one word or two symbols.
    pub fn normal_body(&self) -> Option<Body> {
        match self.items[..] {
            [Item::Word(word)] => Some(Body::Word(word)),
            [Item::Symbol(first), Item::Symbol(second)] => Some(Body::Pair(first, second)),
            _ => None,
        }
    }
}

impl From<Rule> for OfficeRule {
    /// A rule in normal form, which an office may write too.
    fn from(Rule { head, weight, body }: Rule) -> Self {
        let items = match body {
            Body::Word(word) => vec![Item::Word(word)],
            Body::Pair(first, second) => vec![Item::Symbol(first), Item::Symbol(second)],
        };
        Self { head, weight, items }
    }
}

/// A grammar as an office writes it, as plain numbers. Nothing is checked until it is packed.
///
/// ```
/// use spireyerba::{Item::{Symbol, Word}, Office, OfficeRule};
///
/// // an entry is the word 0, a symbol and the word 1; that symbol is word 2
/// let rules = vec![
///     OfficeRule { head: 0, weight: 5, items: vec![Word(0), Symbol(1), Word(1)] },
///     OfficeRule { head: 1, weight: 0, items: vec![Word(2)] },
/// ];
/// let marked = Office { symbols: 2, words: 3, rules }.to_grammar()?;
/// // two helpers for the words, and one that joins the symbol with the second
/// assert_eq!(marked.grammar.symbols, 5);
/// assert_eq!(marked.marks, [false, false, true, true, true]);
/// # Ok::<(), spireyerba::Refusal>(())
/// ```
#[derive(Clone, Debug, PartialEq, Eq, Hash)]
pub struct Office {
    /// How many symbols there are; symbol 0 is the start.
    pub symbols: u32,
    /// How many words there are, numbered apart from the symbols.
    pub words: u32,
    /// The rules, numbered from 0.
    pub rules: Vec<OfficeRule>,
}

impl Office {
    /// The sheet: plain numbers, written out as they are.
    pub fn to_sheet(&self) -> Vec<u32> {
        let mut sheet = vec![self.symbols, self.words, self.rules.len() as u32];
        for OfficeRule { head, weight, items } in &self.rules {
            sheet.extend([*head, *weight, items.len() as u32]);
            sheet.extend(items.iter().flat_map(|item| match *item {
                Item::Symbol(symbol) => [0, symbol],
                Item::Word(word) => [1, word],
            }));
        }
        sheet
    }

    /// Packs the grammar that these rules become, or refuses them as [`office_to_block`] refuses their sheet.
    pub fn to_block(&self) -> Result<Vec<u8>, Refusal> {
        let mut block = vec![0; GRAMMAR_BLOCK_MAX];
        let length = office_to_block(&self.to_sheet(), &mut block)?;
        block.truncate(length);
        Ok(block)
    }

    /// The grammar that these rules become, in which those of helpers are marked; refuses as [`Self::to_block`] does. The rules
    /// keep their numbers, and the derivations match one to one, with equal weight.
    pub fn to_grammar(&self) -> Result<MarkedGrammar, Refusal> {
        MarkedGrammar::from_block(&self.to_block()?)
    }
}
