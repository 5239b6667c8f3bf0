//! The text of a grammar.

use super::names::{is_quoted_otherwise, HELPER, OFFICE, SYMBOLS, WORDS};
use super::notation::{Alternative, Atom, Choice, Element, Times};
use super::rule_fault::RuleFault;
use super::scan::{weight, Token, Tokens, GRAMMAR};
use super::translation::Template;
use super::{without_mark, Fault, NamedGrammar};
use crate::limits::{MAX_RULES, MAX_SLOTS, MAX_SYMBOLS, MAX_WORDS};
use crate::{Error, Item, Position, Refusal};
use std::collections::HashMap;

/// Where in a grammar's text things stand.
#[derive(Clone, Debug, Default, PartialEq, Eq)]
pub struct Places {
    /// The body of each rule.
    pub rules: Vec<Position>,
    /// The first mention of each symbol.
    pub symbols: Vec<Position>,
    /// The first mention of each word.
    pub words: Vec<Position>,
}

impl NamedGrammar {
    /// Reads a grammar's text.
    pub fn parse(text: &str) -> Result<Self, Error> {
        Self::parse_with_places(text).map(|(named, _)| named)
    }

    /// Reads a grammar's text, and says where in it things stand.
    pub fn parse_with_places(text: &str) -> Result<(Self, Places), Error> {
        let mut parser = Parser::default();
        let mut lines = 1;
        for (before, line) in without_mark(text).lines().enumerate() {
            lines = before + 1;
            parser.line(&mut Tokens::new(line, lines, &GRAMMAR))?;
        }
        parser.finish(lines)
    }
}

/// What a list of names has.
const A_SYMBOL: &str = "a symbol";
const A_WORD: &str = "a quoted word";

/// What may stand right behind a part of a body, and behind that.
const OPTIONAL: char = '?';
const PLUS: char = '+';
const STAR: char = '*';
const BEHIND_A_PART: &[char] = &['|', ')', '['];
/// Groups within groups, at most.
const MAX_DEPTH: usize = 16;

/// Names that are numbered as they are met.
#[derive(Default)]
pub(super) struct Names {
    numbers: HashMap<String, u32>,
    pub(super) names: Vec<String>,
    pub(super) places: Vec<Position>,
}

impl Names {
    /// The number of a name, which may be a new one.
    fn number(&mut self, name: &str, position: Position, too_many: Fault, limit: u32) -> Result<u32, Error> {
        if let Some(&number) = self.numbers.get(name) {
            return Ok(number);
        }
        let number = self.names.len() as u32;
        if number == limit {
            return Err(Error::at(position, too_many));
        }
        self.numbers.insert(name.to_owned(), number);
        self.names.push(name.to_owned());
        self.places.push(position);
        Ok(number)
    }
}

/// More than a grammar can have.
fn too_many(what: &'static str, limit: u32) -> Fault {
    Fault::TooMany { what, within: "a grammar", limit, refusal: Refusal::GrammarRange }
}

/// What stands in brackets behind a body.
#[derive(Clone, Copy, Default)]
struct Price {
    weight: u32,
    is_helper: bool,
}

/// What a grammar's text has.
#[derive(Default)]
pub(super) struct Parser {
    pub(super) symbols: Names,
    pub(super) words: Names,
    pub(super) rules: Vec<Alternative>,
    pub(super) marks: Vec<bool>,
    /// How many symbols a list has numbered, which need no rules.
    pub(super) listed: usize,
    /// The head of the rule before, to which a line that begins with a bar adds.
    head: Option<u32>,
    /// The line of each rule, by head and body.
    lines: HashMap<(u32, Vec<Item>), usize>,
    /// Whether a line says that the rules are an office's.
    pub(super) is_office: bool,
    /// The lines of the first rule that is marked and of the first body that is not of normal form.
    pub(super) marked: Option<usize>,
    longer: Option<usize>,
}

impl Parser {
    fn line(&mut self, tokens: &mut Tokens) -> Result<(), Error> {
        match tokens.next()? {
            None => Ok(()),
            Some(Token::Bare(name)) => self.named_line(name, tokens),
            Some(Token::Mark('|')) => match self.head {
                Some(head) => self.alternatives(head, tokens),
                None => tokens.expected("the first rule's head", Some(Token::Mark('|'))),
            },
            other => tokens.expected("a rule's head", other),
        }
    }

    /// A line that begins with a name: a rule, or a list of names.
    fn named_line(&mut self, name: &str, tokens: &mut Tokens) -> Result<(), Error> {
        let position = tokens.position();
        match (name, tokens.next()?) {
            (_, Some(Token::Arrow)) => {
                let head = self.symbol(name, position)?;
                self.head = Some(head);
                self.alternatives(head, tokens)
            }
            (OFFICE, None) => {
                self.is_office = true;
                Ok(())
            }
            (SYMBOLS, first) => self.list(first, tokens, A_SYMBOL),
            (WORDS, first) => self.list(first, tokens, A_WORD),
            (_, other) => tokens.expected("`->`", other),
        }
    }

    /// A list that gives names their numbers, all of them symbols or all of them words.
    fn list<'a>(
        &mut self,
        first: Option<Token<'a>>,
        tokens: &mut Tokens<'a>,
        wanted: &'static str,
    ) -> Result<(), Error> {
        let mut next = first;
        while let Some(token) = next {
            let known = self.named();
            match &token {
                Token::Bare(name) if wanted == A_SYMBOL => self.symbol(name, tokens.position())?,
                Token::Quoted(word) if wanted == A_WORD => self.word(word, tokens.position())?,
                _ => return tokens.expected(wanted, Some(token)),
            };
            if self.named() == known {
                return Err(tokens.fault(Fault::Named(token.shown())));
            }
            next = tokens.next()?;
        }
        if wanted == A_SYMBOL {
            self.listed = self.symbols.names.len();
        }
        Ok(())
    }

    /// How many names there are.
    fn named(&self) -> usize {
        self.symbols.names.len() + self.words.names.len()
    }

    fn symbol(&mut self, name: &str, position: Position) -> Result<u32, Error> {
        if is_quoted_otherwise(name) {
            return Err(Error::at(position, RuleFault::Quotes(name.to_owned()).into()));
        }
        self.symbols.number(name, position, too_many("symbols", MAX_SYMBOLS), MAX_SYMBOLS)
    }

    fn word(&mut self, word: &str, position: Position) -> Result<u32, Error> {
        if word.is_empty() {
            return Err(Error::at(position, RuleFault::EmptyWord.into()));
        }
        self.words.number(word, position, too_many("words", MAX_WORDS), MAX_WORDS)
    }

    fn alternatives(&mut self, head: u32, tokens: &mut Tokens) -> Result<(), Error> {
        while self.alternative(head, tokens)? {}
        Ok(())
    }

    /// One body with its weight and its translation; answers whether another follows.
    fn alternative(&mut self, head: u32, tokens: &mut Tokens) -> Result<bool, Error> {
        let (body, mut end, place) = self.body(tokens, 0)?;
        let (mut price, mut translation) = (None, None);
        loop {
            match end {
                Some(Token::Mark('[')) if price.is_none() => price = Some(self.price(tokens, true)?),
                Some(Token::Becomes) if translation.is_none() => {
                    translation = Some(self.translation(tokens, body.len())?);
                }
                _ => break,
            }
            end = tokens.next()?;
        }
        match end {
            None | Some(Token::Mark('|')) => {
                let Price { weight, is_helper } = price.unwrap_or_default();
                self.rule(Alternative { head, weight, body, translation, place }, is_helper)?;
            }
            other => return tokens.expected("`|` or the end of the line", other),
        }
        Ok(end.is_some())
    }

    /// The parts of a body, the token behind them, and where the body stands.
    fn body<'a>(
        &mut self,
        tokens: &mut Tokens<'a>,
        depth: usize,
    ) -> Result<(Vec<Element>, Option<Token<'a>>, Position), Error> {
        let (mut body, mut first) = (Vec::new(), None);
        loop {
            let token = tokens.next()?;
            let place = tokens.position();
            let is_part = matches!(token, Some(Token::Bare(_) | Token::Quoted(_) | Token::Mark('(')));
            if is_part && body.len() == MAX_SLOTS as usize {
                let (limit, refusal) = (MAX_SLOTS, Refusal::ItemCount);
                return Err(tokens.fault(Fault::TooMany { what: "parts", within: "a body", limit, refusal }));
            }
            let atom = match &token {
                Some(Token::Mark(mark @ (OPTIONAL | PLUS | STAR))) => {
                    return Err(tokens.fault(RuleFault::Apart(*mark).into()));
                }
                Some(Token::Bare(name)) => Atom::Item(Item::Symbol(self.symbol(name, place)?)),
                Some(Token::Quoted(word)) => Atom::Item(Item::Word(self.word(word, place)?)),
                Some(Token::Mark('(')) => Atom::Group(self.group(tokens, depth + 1)?),
                // of a group that is not closed its parenthesis is at fault
                _ if body.is_empty() && !(token.is_none() && depth > 0) => {
                    return Err(tokens.fault(RuleFault::NoBody.into()));
                }
                _ => return Ok((body, token, first.unwrap_or(place))),
            };
            body.push(Element { atom, times: times(tokens)?, place });
            first.get_or_insert(place);
        }
    }

    /// The bodies of a group, behind its parenthesis.
    fn group(&mut self, tokens: &mut Tokens, depth: usize) -> Result<Vec<Choice>, Error> {
        if depth > MAX_DEPTH {
            return Err(tokens.fault(RuleFault::Deep { limit: MAX_DEPTH }.into()));
        }
        let (open, mut choices) = (tokens.position(), Vec::new());
        loop {
            let (body, mut end, place) = self.body(tokens, depth)?;
            let mut weight = 0;
            if end == Some(Token::Mark('[')) {
                weight = self.price(tokens, false)?.weight;
                end = tokens.next()?;
            }
            choices.push(Choice { body, weight, place });
            match end {
                Some(Token::Mark('|')) => {}
                Some(Token::Mark(')')) => return Ok(choices),
                None => return Err(Error::at(open, RuleFault::Open.into())),
                other => return tokens.expected("`|` or `)`", other),
            }
        }
    }

    /// A weight, a word that says that the rule is marked, which a body in a group is not, or both, and the bracket behind them.
    fn price(&mut self, tokens: &mut Tokens, may_be_marked: bool) -> Result<Price, Error> {
        let mut price = Price::default();
        let mut next = tokens.next()?;
        match next {
            Some(Token::Bare(HELPER)) if may_be_marked => {}
            Some(Token::Bare(item)) if item != HELPER => {
                price.weight = weight(item, "weight").map_err(|fault| tokens.fault(fault))?;
                next = tokens.next()?;
            }
            other => return tokens.expected("a weight", other),
        }
        if may_be_marked && next == Some(Token::Bare(HELPER)) {
            price.is_helper = true;
            next = tokens.next()?;
        }
        match next {
            Some(Token::Mark(']')) => Ok(price),
            other => tokens.expected("`]`", other),
        }
    }

    /// What a rule of so many parts becomes.
    fn translation(&mut self, tokens: &mut Tokens, parts: usize) -> Result<Template, Error> {
        match tokens.next()? {
            Some(Token::Quoted(text)) => Template::parse(&text, parts).map_err(|fault| tokens.fault(fault.into())),
            other => tokens.expected("a quoted translation", other),
        }
    }

    fn rule(&mut self, rule: Alternative, is_helper: bool) -> Result<(), Error> {
        let place = rule.place;
        let fault = |fault| Err(Error::at(place, fault));
        let plain = rule.plain();
        if let Some(plain) = &plain {
            if let Some(line) = self.lines.insert((plain.head, plain.items.clone()), place.line) {
                return fault(Fault::RepeatedRule { line });
            }
        }
        if self.rules.len() == MAX_RULES as usize {
            return fault(too_many("rules", MAX_RULES));
        }
        let first = self.marked.or(self.longer);
        if is_helper {
            self.marked.get_or_insert(place.line);
        }
        if plain.and_then(|plain| plain.normal_body()).is_none() {
            self.longer.get_or_insert(place.line);
        }
        if self.marked.is_some() && self.longer.is_some() {
            return fault(Fault::Marked { line: first.unwrap_or(place.line) });
        }
        self.rules.push(rule);
        self.marks.push(is_helper);
        Ok(())
    }
}

/// How often the part stands there behind which the tokens are.
fn times(tokens: &mut Tokens) -> Result<Times, Error> {
    let times = match tokens.touching(&[OPTIONAL, PLUS, STAR]) {
        None => return Ok(Times::Once),
        Some(PLUS) => Times::Plus,
        Some(STAR) => Times::Star,
        Some(_) => match tokens.touching_number() {
            None => Times::Optional { absence: 0 },
            Some(number) => Times::Optional { absence: weight(number, "cost").map_err(|fault| tokens.fault(fault))? },
        },
    };
    match tokens.is_apart(BEHIND_A_PART) {
        true => Ok(times),
        false => {
            let found = tokens.next()?;
            tokens.expected("a blank", found)
        }
    }
}
