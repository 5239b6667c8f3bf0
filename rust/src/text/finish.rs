//! From the rules of a grammar's text to a grammar.

use super::expansion::{expanded, Expanded};
use super::grammar::{Parser, Places};
use super::nearest::nearest;
use super::notation::{Alternative, Atom, Element, Written};
use super::room::{Lines, Room};
use super::rule_fault::RuleFault;
use super::source::{Expansion, Kind, Parts, Piece, Source, SourceRule};
use super::{Fault, NamedGrammar};
use crate::{Error, Grammar, Item, MarkedGrammar, Office, OfficeRule, Position, Refusal, Rule};
use std::collections::HashSet;

impl Parser {
    /// The grammar of a text of so many lines.
    pub(super) fn finish(self, lines: usize) -> Result<(NamedGrammar, Places), Error> {
        let none =
            |what| Error::at(Position { line: lines, column: 1 }, Fault::None { what, refusal: Refusal::GrammarRange });
        if self.rules.is_empty() {
            return Err(none("rule"));
        }
        self.check_names()?;
        if self.words.names.is_empty() {
            return Err(none("quoted word"));
        }
        let named = self.named_grammar()?;
        let rules = self.rules.iter().map(|rule| rule.place).collect();
        Ok((named, Places { rules, symbols: self.symbols.places, words: self.words.places }))
    }

    /// Every symbol has a rule, but for those that a list has.
    fn check_names(&self) -> Result<(), Error> {
        let names = &self.symbols.names;
        let mut has_rule = vec![false; names.len()];
        self.rules.iter().for_each(|rule| has_rule[rule.head as usize] = true);
        let mut missing = (self.listed..names.len()).filter(|symbol| !has_rule[*symbol]);
        let Some(first) = missing.next() else { return Ok(()) };
        let with_rules = names.iter().zip(&has_rule).filter(|(_, has_rule)| **has_rule).map(|(name, _)| name.as_str());
        let fault = RuleFault::NoRule {
            name: names[first].clone(),
            nearest: nearest(&names[first], with_rules),
            others: missing.map(|symbol| names[symbol].clone()).collect(),
        };
        Err(Error::at(self.symbols.places[first], fault.into()))
    }

    fn named_grammar(&self) -> Result<NamedGrammar, Error> {
        let [symbols, words] = [&self.symbols, &self.words].map(|names| names.names.clone());
        let Some(office) = self.plain() else { return self.written_out() };
        let named = match normal_form(&office) {
            Some(grammar) if self.marked.is_some() => {
                NamedGrammar::marked(MarkedGrammar { grammar, marks: self.marks.clone() }, symbols, words)
            }
            Some(grammar) if !self.is_office => NamedGrammar::new(grammar, symbols, words),
            // equal joints are one where they would not fit otherwise
            _ => match office.to_grammar() {
                Err(Refusal::OfficeSize) => return self.written_out(),
                marked => NamedGrammar::marked(marked?, symbols, words),
            },
        };
        let has_translations = self.rules.iter().any(|rule| rule.translation.is_some());
        let expansions = || (0..).zip(&office.rules).map(|(rule, written)| itself(rule, written)).collect();
        Ok(if has_translations { named.with_source(self.source(expansions())) } else { named })
    }

    /// The rules, if an office's sheet has such rules.
    fn plain(&self) -> Option<Office> {
        let rules = self.rules.iter().map(Alternative::plain);
        let rules = rules.map(|rule| rule.filter(|rule| rule.items.len() <= crate::limits::MAX_ITEMS as usize));
        let [symbols, words] = [&self.symbols, &self.words].map(|names| names.names.len() as u32);
        Some(Office { symbols, words, rules: rules.collect::<Option<_>>()? })
    }

    /// The grammar of rules that say more than an office's sheet can, or that fit only so.
    fn written_out(&self) -> Result<NamedGrammar, Error> {
        let written = Written { symbols: &self.symbols.names, words: &self.words.names };
        let Expanded { office, expansions, makers, names, kinds } = expanded(&self.rules, &written)?;
        let own = [self.symbols.names.len() as u32, self.rules.len() as u32];
        let line = |rule: u32| self.rules[rule as usize].place.line;
        let lines = Lines {
            of_items: makers.iter().map(|maker| line(*maker)).collect(),
            of_rules: repeated(expansions.iter().filter(|made| made.parts.is_some()).map(|made| made.rule))
                .map(line)
                .collect(),
        };
        if let Some(room) = Room::passed(&office, own, &kinds, &lines) {
            let dearest = room.dearest.first().map_or(1, |(line, _)| *line);
            let place = self.rules.iter().map(|rule| rule.place).find(|place| place.line == dearest);
            let place = place.unwrap_or(self.rules[0].place);
            return Err(Error::at(place, RuleFault::Room(Box::new(room)).into()));
        }
        let symbols = self.symbols.names.iter().cloned().chain(names).collect();
        let words = self.words.names.clone();
        let named = match normal_form(&office) {
            Some(grammar) if !self.is_office => NamedGrammar::new(grammar, symbols, words),
            _ => NamedGrammar::marked(office.to_grammar()?, symbols, words),
        };
        Ok(named.with_source(self.source(expansions)))
    }

    fn source(&self, expansions: Vec<Expansion>) -> Source {
        let written = Written { symbols: &self.symbols.names, words: &self.words.names };
        let rule = |rule: &Alternative| SourceRule {
            head: rule.head,
            text: written.rule(rule),
            translation: rule.translation.clone(),
        };
        Source {
            rules: self.rules.iter().map(rule).collect(),
            symbols: self.symbols.names.len() as u32,
            expansions,
            met: met(&self.rules),
        }
    }
}

/// The numbers that stood there before, each time that they stand there again.
fn repeated(numbers: impl Iterator<Item = u32>) -> impl Iterator<Item = u32> {
    let mut known = HashSet::new();
    numbers.filter(move |number| !known.insert(*number))
}

/// The symbols and the words in the order in which rules mention them.
fn met(rules: &[Alternative]) -> [Vec<u32>; 2] {
    let mut items = Vec::new();
    rules.iter().for_each(|rule| {
        items.push(Item::Symbol(rule.head));
        add_items(&rule.body, &mut items);
    });
    let mut known = HashSet::new();
    items.retain(|item| known.insert(*item));
    let symbol = |item: &Item| if let Item::Symbol(symbol) = item { Some(*symbol) } else { None };
    let word = |item: &Item| if let Item::Word(word) = item { Some(*word) } else { None };
    [items.iter().filter_map(symbol).collect(), items.iter().filter_map(word).collect()]
}

/// Adds the items of a body, those of its groups too.
fn add_items(body: &[Element], items: &mut Vec<Item>) {
    body.iter().for_each(|element| match &element.atom {
        Atom::Item(item) => items.push(*item),
        Atom::Group(choices) => choices.iter().for_each(|choice| add_items(&choice.body, items)),
    });
}

/// Where a rule comes from that is as it is written.
fn itself(number: u32, OfficeRule { weight, items, .. }: &OfficeRule) -> Expansion {
    let pieces = (0..items.len() as u32).map(|element| Piece { element, kind: Kind::Item }).collect();
    let node = Piece { element: 0, kind: Kind::Node { rule: number, weight: *weight, pieces } };
    Expansion { rule: number, parts: Some(Parts { weight: 0, pieces: vec![node] }) }
}

/// The grammar, if all its bodies are of normal form.
fn normal_form(office: &Office) -> Option<Grammar> {
    let Office { symbols, words, rules } = office;
    let rule = |rule: &OfficeRule| Some(Rule { head: rule.head, weight: rule.weight, body: rule.normal_body()? });
    Some(Grammar { symbols: *symbols, words: *words, rules: rules.iter().map(rule).collect::<Option<_>>()? })
}
