//! Grammars as values.

use crate::limits::GRAMMAR_BLOCK_MAX;
use crate::services::grammar_to_block;
use crate::{HeardRef, Lister, MarkedGrammar, PackedGrammar, Reading, Refusal};

/// What a rule puts in the place of its head.
#[derive(Clone, Copy, Debug, PartialEq, Eq, Hash)]
pub enum Body {
    /// Two symbols, over adjoining spans.
    Pair(u32, u32),
    /// One word, over one slot or one edge.
    Word(u32),
}

/// A rule, which costs its weight wherever a derivation uses it.
#[derive(Clone, Copy, Debug, PartialEq, Eq, Hash)]
pub struct Rule {
    /// The symbol that the rule derives from.
    pub head: u32,
    /// What its use costs.
    pub weight: u32,
    /// What it derives.
    pub body: Body,
}

/// A grammar in Chomsky normal form, as plain numbers. Nothing is checked until it is packed.
#[derive(Clone, Debug, PartialEq, Eq, Hash)]
pub struct Grammar {
    /// How many symbols there are; symbol 0 is the start.
    pub symbols: u32,
    /// How many words there are, numbered apart from the symbols.
    pub words: u32,
    /// The rules, numbered from 0.
    pub rules: Vec<Rule>,
}

/// The numbers of a sheet before its rules, and of each rule.
pub(crate) const SHEET_HEAD: usize = 3;
pub(crate) const SHEET_RULE: usize = 5;
/// The first number of a rule.
const PAIR_RULE: u32 = 0;
const WORD_RULE: u32 = 1;

impl Rule {
    /// The numbers of a rule in a sheet, but for its mark.
    pub(crate) fn numbers(&self) -> [u32; SHEET_RULE] {
        let &Self { head, weight, body } = self;
        match body {
            Body::Pair(first, second) => [PAIR_RULE, head, weight, first, second],
            Body::Word(word) => [WORD_RULE, head, weight, word, 0],
        }
    }

    /// The rule of these numbers, which the library accepted or wrote.
    pub(crate) fn of_accepted(&[kind, head, weight, first, second]: &[u32; SHEET_RULE]) -> Self {
        let body = if kind == PAIR_RULE { Body::Pair(first, second) } else { Body::Word(first) };
        Self { head, weight, body }
    }
}

impl Grammar {
    /// Reads a sheet with or without marks, or refuses it as [`grammar_to_block`] does. The marks are in a [`MarkedGrammar`].
    pub fn from_sheet(sheet: &[u32]) -> Result<Self, Refusal> {
        MarkedGrammar::from_sheet(sheet).map(|marked| marked.grammar)
    }

    /// The sheet: plain numbers, written out as they are.
    pub fn to_sheet(&self) -> Vec<u32> {
        let mut sheet = Vec::with_capacity(SHEET_HEAD + SHEET_RULE * self.rules.len());
        sheet.extend([self.symbols, self.words, self.rules.len() as u32]);
        sheet.extend(self.rules.iter().flat_map(Rule::numbers));
        sheet
    }

    /// Unpacks a block with or without marks, or refuses it as [`grammar_to_sheet`](crate::services::grammar_to_sheet) does.
    /// The marks are in a [`MarkedGrammar`].
    pub fn from_block(block: &[u8]) -> Result<Self, Refusal> {
        MarkedGrammar::from_block(block).map(|marked| marked.grammar)
    }

    /// Packs the grammar, or refuses it as [`grammar_to_block`] refuses its sheet.
    pub fn to_block(&self) -> Result<Vec<u8>, Refusal> {
        let mut block = vec![0; GRAMMAR_BLOCK_MAX];
        let length = grammar_to_block(&self.to_sheet(), &mut block)?;
        block.truncate(length);
        Ok(block)
    }

    /// The `wanted` least readings of what was heard, the least first; fewer if there are no more. Refuses as
    /// [`grammar_to_block`] and [`Utterance::to_block`](crate::Utterance::to_block) or
    /// [`Graph::to_block`](crate::Graph::to_block) do, then with [`Refusal::ListingWanted`].
    ///
    /// A call has a work table of its own; a [`Lister`] keeps one between calls.
    pub fn list<'a>(&self, heard: impl Into<HeardRef<'a>>, wanted: u32) -> Result<Vec<Reading>, Refusal> {
        Lister::new(self)?.list(heard, wanted)
    }

    /// Passes a reading of what was heard exactly if it is that of a derivation, with its true weight. Refuses the grammar and
    /// what was heard as they are when packed, then the reading as [`Reading::to_block`] and
    /// [`check`](crate::services::check) do.
    ///
    /// ```
    /// use spireyerba::{text::NamedGrammar, Refusal};
    ///
    /// let named = NamedGrammar::parse("A -> A A [1] | \"x\"")?;
    /// let utterance = named.parse_utterance("x 2; x 3")?;
    /// let mut reading = named.grammar.list(&utterance, 1)?.remove(0);
    /// assert_eq!(named.grammar.check(&utterance, &reading), Ok(()));
    /// reading.weight -= 1;
    /// assert_eq!(named.grammar.check(&utterance, &reading), Err(Refusal::ReadingWeight));
    /// # Ok::<(), spireyerba::Error>(())
    /// ```
    pub fn check<'a>(&self, heard: impl Into<HeardRef<'a>>, reading: &Reading) -> Result<(), Refusal> {
        PackedGrammar::new(self)?.check(heard, reading)
    }

    /// The chance of a reading of what was heard: the product of the shares of its rules, each of 1,024, as
    /// [`chance`](crate::services::chance) has it. Refuses as [`Self::check`] does, then with [`Refusal::SharesCount`] where
    /// there is not one share for each rule, then with [`Refusal::ShareRange`].
    ///
    /// ```
    /// use spireyerba::{text::NamedGrammar, Refusal};
    ///
    /// let named = NamedGrammar::parse("A -> A A [1] | \"x\"")?;
    /// let utterance = named.parse_utterance("x 2; x 3")?;
    /// let reading = named.grammar.list(&utterance, 1)?.remove(0);
    /// assert_eq!(named.grammar.chance(&utterance, &reading, &[512, 1024]), Ok(0.5));
    /// assert_eq!(named.grammar.chance(&utterance, &reading, &[512]), Err(Refusal::SharesCount));
    /// # Ok::<(), spireyerba::Error>(())
    /// ```
    pub fn chance<'a>(
        &self,
        heard: impl Into<HeardRef<'a>>,
        reading: &Reading,
        shares: &[u32],
    ) -> Result<f64, Refusal> {
        PackedGrammar::new(self)?.chance(heard, reading, shares)
    }
}
