//! Grammars whose rules bear marks.

use crate::grammar::{SHEET_HEAD, SHEET_RULE};
use crate::limits::{GRAMMAR_BLOCK_MAX, GRAMMAR_SHEET_MAX, MAX_ITEMS};
use crate::services::{grammar_to_block, grammar_to_sheet};
use crate::{Body, Grammar, Item, Office, OfficeRule, Refusal, Rule};

/// A grammar with a mark for each rule, as an office's rules become one: the rules of helpers are marked.
///
/// Every service takes its block as it takes a grammar's without marks, and passes over the marks, but for the conversions,
/// which keep them.
#[derive(Clone, Debug, PartialEq, Eq, Hash)]
pub struct MarkedGrammar {
    /// The grammar without its marks.
    pub grammar: Grammar,
    /// Of each rule whether it is marked.
    pub marks: Vec<bool>,
}

impl MarkedGrammar {
    /// Reads a sheet, or refuses it as [`grammar_to_block`] does. Without marks no rule is marked.
    pub fn from_sheet(sheet: &[u32]) -> Result<Self, Refusal> {
        grammar_to_block(sheet, &mut [0; GRAMMAR_BLOCK_MAX])?;
        Ok(Self::of_accepted(of_accepted(sheet)))
    }

    /// The sheet with marks.
    pub fn to_sheet(&self) -> Vec<u32> {
        let Grammar { symbols, words, rules } = &self.grammar;
        let mut sheet = vec![*symbols, *words, rules.len() as u32];
        for (rule, &mark) in rules.iter().zip(&self.marks) {
            sheet.extend(rule.numbers());
            sheet.push(mark.into());
        }
        sheet
    }

    /// Unpacks a block, or refuses it as [`grammar_to_sheet`] does. Without marks no rule is marked.
    pub fn from_block(block: &[u8]) -> Result<Self, Refusal> {
        unpacked(block).map(Self::of_accepted)
    }

    /// Packs the grammar with its marks, or refuses it as [`grammar_to_block`] refuses its sheet.
    pub fn to_block(&self) -> Result<Vec<u8>, Refusal> {
        let mut block = vec![0; GRAMMAR_BLOCK_MAX];
        let length = grammar_to_block(&self.to_sheet(), &mut block)?;
        block.truncate(length);
        Ok(block)
    }

    /// A reading's rule numbers without those of marked rules, as the lister prints them.
    pub fn shown(&self, walk: &[u32]) -> Vec<u32> {
        walk.iter().copied().filter(|&rule| !self.marks[rule as usize]).collect()
    }

    /// The rules as an office writes them, if this is the grammar that they become: then [`Office::to_grammar`] gives it
    /// again. Nothing if its marks are others.
    ///
    /// ```
    /// use spireyerba::{Item::{Symbol, Word}, Office, OfficeRule};
    ///
    /// let rules = vec![OfficeRule { head: 0, weight: 5, items: vec![Word(0), Symbol(0), Word(1), Word(0)] }];
    /// let office = Office { symbols: 1, words: 2, rules };
    /// let mut marked = office.to_grammar()?;
    /// assert_eq!(marked.to_office(), Some(office));
    /// marked.marks[0] = true;
    /// assert_eq!(marked.to_office(), None);
    /// # Ok::<(), spireyerba::Refusal>(())
    /// ```
    pub fn to_office(&self) -> Option<Office> {
        let Grammar { symbols, words, rules } = &self.grammar;
        let (own, helpers) = rules.split_at(self.marks.iter().take_while(|mark| !**mark).count());
        let symbols = symbols.checked_sub(helpers.len() as u32)?;
        let written = |rule: &Rule| {
            let items = items(rule.body, symbols, helpers)?;
            Some(OfficeRule { head: rule.head, weight: rule.weight, items })
        };
        let office = Office { symbols, words: *words, rules: own.iter().map(written).collect::<Option<_>>()? };
        // the library says what they become
        (office.to_grammar().as_ref() == Ok(self)).then_some(office)
    }

    fn of_accepted((grammar, marks): (Grammar, Option<Vec<bool>>)) -> Self {
        let marks = marks.unwrap_or_else(|| vec![false; grammar.rules.len()]);
        Self { grammar, marks }
    }
}

/// The items that a body stands for, if helpers have the symbols from a number on and one of these rules each.
fn items(mut body: Body, symbols: u32, helpers: &[Rule]) -> Option<Vec<Item>> {
    let helper = |symbol: u32| Some(helpers.get(symbol.checked_sub(symbols)? as usize)?.body);
    let item = |symbol| match helper(symbol) {
        None => Some(Item::Symbol(symbol)),
        Some(Body::Word(word)) => Some(Item::Word(word)),
        Some(Body::Pair(..)) => None,
    };
    let mut items = Vec::new();
    while items.len() < MAX_ITEMS as usize {
        let (first, rest) = match body {
            Body::Word(word) => return Some(vec![Item::Word(word)]),
            Body::Pair(first, rest) => (first, rest),
        };
        items.push(item(first)?);
        match helper(rest) {
            Some(chain @ Body::Pair(..)) => body = chain,
            _ => {
                items.push(item(rest)?);
                return Some(items);
            }
        }
    }
    None
}

/// The grammar of a block, and the marks of its rules, if it has any; or refuses it as [`grammar_to_sheet`] does.
pub(crate) fn unpacked(block: &[u8]) -> Result<(Grammar, Option<Vec<bool>>), Refusal> {
    let mut sheet = [0; GRAMMAR_SHEET_MAX];
    let length = grammar_to_sheet(block, &mut sheet)?;
    Ok(of_accepted(&sheet[..length]))
}

/// The grammar of a sheet that the library accepted or wrote, and the marks of its rules, if it has any.
fn of_accepted(sheet: &[u32]) -> (Grammar, Option<Vec<bool>>) {
    let (head, numbers) = sheet.split_at(SHEET_HEAD);
    let rules = numbers.chunks_exact(numbers.len() / head[2] as usize);
    let (rules, marks): (_, Vec<&[u32]>) = rules
        .map(|numbers| {
            let (rule, mark) = numbers.split_first_chunk::<SHEET_RULE>().expect("five numbers or six");
            (Rule::of_accepted(rule), mark)
        })
        .unzip();
    let marks = marks.into_iter().map(|mark| mark.first().map(|mark| *mark == 1)).collect();
    (Grammar { symbols: head[0], words: head[1], rules }, marks)
}
