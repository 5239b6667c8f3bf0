//! The blocks and sheets of grammars (document 01, "Grammars and derivations", "Packed blocks"), with and without marks
//! (document 02, N5).

use crate::bits::{BitReader, BitWriter};
use spireyerba::limits::{width, MAX_RULES, MAX_SYMBOLS, MAX_WEIGHT, MAX_WORDS};
use spireyerba::{Body, Grammar, MarkedGrammar, Refusal, Rule};
use std::collections::HashSet;

const KIND: u32 = 1;
const MARKED_KIND: u32 = 4;
const WEIGHT_WIDTH: usize = 16;

/// A grammar of either kind: with a mark for each rule, or without marks.
#[derive(Clone, Debug, PartialEq, Eq)]
pub enum Kind {
    Plain(Grammar),
    Marked(MarkedGrammar),
}

impl Kind {
    /// The grammar, whose marks do not matter.
    pub fn grammar(self) -> Grammar {
        match self {
            Self::Plain(grammar) => grammar,
            Self::Marked(marked) => marked.grammar,
        }
    }

    pub fn to_sheet(&self) -> Vec<u32> {
        match self {
            Self::Plain(grammar) => grammar.to_sheet(),
            Self::Marked(marked) => marked.to_sheet(),
        }
    }

    /// Packs it. Nothing is checked: numbers out of range make a block that is refused.
    pub fn pack(&self) -> Vec<u8> {
        match self {
            Self::Plain(grammar) => pack(grammar),
            Self::Marked(marked) => pack_marked(marked),
        }
    }
}

pub fn symbol_width(grammar: &Grammar) -> usize {
    width(grammar.symbols - 1)
}

pub fn word_width(grammar: &Grammar) -> usize {
    width(grammar.words - 1)
}

pub fn rule_width(grammar: &Grammar) -> usize {
    width(grammar.rules.len() as u32 - 1)
}

/// The word of each word rule.
pub fn words_of_rules(grammar: &Grammar) -> impl Iterator<Item = u32> + '_ {
    grammar.rules.iter().filter_map(|rule| match rule.body {
        Body::Word(word) => Some(word),
        Body::Pair(..) => None,
    })
}

/// Reads a block of either kind, whose marks do not matter, or refuses it with 1 to 7.
pub fn from_block(block: &[u8]) -> Result<Grammar, Refusal> {
    of_block(block).map(Kind::grammar)
}

/// Reads a block, or refuses it with 1 to 7.
pub fn of_block(block: &[u8]) -> Result<Kind, Refusal> {
    let mut reader = BitReader::new(block);
    let mut field = |width| reader.field(width).ok_or(Refusal::GrammarEnd);
    let has_marks = match field(4)? {
        KIND => false,
        MARKED_KIND => true,
        _ => return Err(Refusal::GrammarKind),
    };
    let symbols = up_to(MAX_SYMBOLS, field(6)?)?;
    let words = up_to(MAX_WORDS, field(8)?)?;
    let rules = up_to(MAX_RULES, field(9)?)?;
    let mut draft = Draft::new(symbols, words);
    for _ in 0..rules {
        let is_word = field(1)? == 1;
        let head = draft.symbol(field(width(symbols - 1))?)?;
        let weight = field(WEIGHT_WIDTH)?;
        let body = if is_word {
            Body::Word(draft.word(field(width(words - 1))?)?)
        } else {
            let first = draft.symbol(field(width(symbols - 1))?)?;
            let second = draft.symbol(field(width(symbols - 1))?)?;
            Body::Pair(first, second)
        };
        let mark = has_marks && field(1)? == 1;
        draft.add(Rule { head, weight, body }, mark)?;
    }
    if !reader.only_fill_left() {
        return Err(Refusal::GrammarFill);
    }
    Ok(draft.finish(has_marks))
}

/// Packs a grammar without marks. Nothing is checked: numbers out of range make a block that is refused.
pub fn pack(grammar: &Grammar) -> Vec<u8> {
    pack_as(KIND, grammar, &[])
}

/// Packs a grammar with marks likewise.
pub fn pack_marked(marked: &MarkedGrammar) -> Vec<u8> {
    pack_as(MARKED_KIND, &marked.grammar, &marked.marks)
}

/// The block of a kind, with as many marks as are given.
fn pack_as(kind: u32, grammar: &Grammar, marks: &[bool]) -> Vec<u8> {
    let mut writer = BitWriter::default();
    writer.field(4, kind);
    writer.field(6, grammar.symbols);
    writer.field(8, grammar.words);
    writer.field(9, grammar.rules.len() as u32);
    for (number, rule) in grammar.rules.iter().enumerate() {
        writer.field(1, u32::from(matches!(rule.body, Body::Word(_))));
        writer.field(symbol_width(grammar), rule.head);
        writer.field(WEIGHT_WIDTH, rule.weight);
        match rule.body {
            Body::Pair(first, second) => {
                writer.field(symbol_width(grammar), first);
                writer.field(symbol_width(grammar), second);
            }
            Body::Word(word) => writer.field(word_width(grammar), word),
        }
        if let Some(&mark) = marks.get(number) {
            writer.field(1, mark.into());
        }
    }
    writer.finish()
}

/// Reads a sheet of either kind, whose marks do not matter, or refuses it with 41, 42 or 3 to 6.
pub fn from_sheet(sheet: &[u32]) -> Result<Grammar, Refusal> {
    of_sheet(sheet).map(Kind::grammar)
}

/// Reads a sheet, or refuses it with 41, 42 or 3 to 6. Its length says of which kind it is.
pub fn of_sheet(sheet: &[u32]) -> Result<Kind, Refusal> {
    let &[symbols, words, rules, ref fields @ ..] = sheet else {
        return Err(Refusal::SheetCount);
    };
    let mut draft = Draft::new(up_to(MAX_SYMBOLS, symbols)?, up_to(MAX_WORDS, words)?);
    let rules = up_to(MAX_RULES, rules)? as usize;
    let has_marks = fields.len() == 6 * rules;
    if !has_marks && fields.len() != 5 * rules {
        return Err(Refusal::SheetCount);
    }
    for fields in fields.chunks_exact(fields.len() / rules) {
        draft.add_from_sheet(fields)?;
    }
    Ok(draft.finish(has_marks))
}

/// S, W or R, of which there is at least one.
pub(crate) fn up_to(most: u32, number: u32) -> Result<u32, Refusal> {
    if (1..=most).contains(&number) {
        Ok(number)
    } else {
        Err(Refusal::GrammarRange)
    }
}

/// A grammar of which some rules have been read.
struct Draft {
    grammar: Grammar,
    marks: Vec<bool>,
    seen: HashSet<(u32, Body)>,
}

impl Draft {
    fn new(symbols: u32, words: u32) -> Self {
        let grammar = Grammar { symbols, words, rules: Vec::new() };
        Self { grammar, marks: Vec::new(), seen: HashSet::new() }
    }

    fn finish(self, has_marks: bool) -> Kind {
        let Self { grammar, marks, .. } = self;
        if has_marks {
            Kind::Marked(MarkedGrammar { grammar, marks })
        } else {
            Kind::Plain(grammar)
        }
    }

    fn symbol(&self, symbol: u32) -> Result<u32, Refusal> {
        if symbol < self.grammar.symbols {
            Ok(symbol)
        } else {
            Err(Refusal::GrammarSymbol)
        }
    }

    fn word(&self, word: u32) -> Result<u32, Refusal> {
        if word < self.grammar.words {
            Ok(word)
        } else {
            Err(Refusal::GrammarWord)
        }
    }

    /// Adds a rule whose fields have been checked. Its mark is no part of what may not be repeated.
    fn add(&mut self, rule: Rule, mark: bool) -> Result<(), Refusal> {
        if !self.seen.insert((rule.head, rule.body)) {
            return Err(Refusal::GrammarRepeat);
        }
        self.grammar.rules.push(rule);
        self.marks.push(mark);
        Ok(())
    }

    /// Adds a rule of five numbers, or of six where the last is its mark.
    fn add_from_sheet(&mut self, fields: &[u32]) -> Result<(), Refusal> {
        let &[kind, head, weight, first, second, ref mark @ ..] = fields else { unreachable!("five numbers at least") };
        if kind > 1 {
            return Err(Refusal::SheetValue);
        }
        let head = self.symbol(head)?;
        if weight > MAX_WEIGHT {
            return Err(Refusal::SheetValue);
        }
        let body = if kind == 0 {
            Body::Pair(self.symbol(first)?, self.symbol(second)?)
        } else {
            let word = self.word(first)?;
            if second != 0 {
                return Err(Refusal::SheetValue);
            }
            Body::Word(word)
        };
        let mark = match mark {
            [] | [0] => false,
            [1] => true,
            _ => return Err(Refusal::SheetValue),
        };
        self.add(Rule { head, weight, body }, mark)
    }
}
