//! Grammars with notation, from which derivations are made directly: nothing is written out as rules of an office.

use crate::seeded::rng::Rng;
use spireyerba::{Part, Tree};

/// A rule of a text. Symbols and words have numbers, and the names `S0`, `S1` .. and `w0`, `w1` ...
#[derive(Clone, Debug)]
pub struct Rule {
    pub head: u32,
    pub weight: u32,
    pub body: Vec<Element>,
    /// What it becomes, by the numbers of its parts from 0 on.
    pub translation: Option<Vec<u32>>,
}

#[derive(Clone, Debug)]
pub struct Element {
    pub atom: Atom,
    pub times: Times,
}

#[derive(Clone, Debug)]
pub enum Atom {
    Symbol(u32),
    Word(u32),
    /// Bodies and their weights.
    Group(Vec<(Vec<Element>, u32)>),
}

#[derive(Clone, Copy, Debug, PartialEq)]
pub enum Times {
    Once,
    Optional(u32),
    Plus,
    Star,
}

/// The text of rules.
pub fn text(rules: &[Rule]) -> String {
    let line = |rule: &Rule| {
        let translation = rule.translation.iter().map(|parts| {
            let parts: Vec<String> = parts.iter().map(|part| format!("${}", part + 1)).collect();
            format!(" => \"<{}>\"", parts.join("-"))
        });
        format!("S{} -> {} [{}]{}\n", rule.head, body_text(&rule.body), rule.weight, translation.collect::<String>())
    };
    rules.iter().map(line).collect()
}

fn body_text(body: &[Element]) -> String {
    body.iter().map(element_text).collect::<Vec<_>>().join(" ")
}

fn element_text(Element { atom, times }: &Element) -> String {
    let atom = match atom {
        Atom::Symbol(symbol) => format!("S{symbol}"),
        Atom::Word(word) => format!("\"w{word}\""),
        Atom::Group(choices) => {
            let choices = choices.iter().map(|(body, weight)| format!("{} [{weight}]", body_text(body)));
            format!("({})", choices.collect::<Vec<_>>().join(" | "))
        }
    };
    match times {
        Times::Once => atom,
        Times::Optional(cost) => format!("{atom}?{cost}"),
        Times::Plus => format!("{atom}+"),
        Times::Star => format!("{atom}*"),
    }
}

/// Some rules, of which each symbol has one of a word alone, without those that are not to stand beside the ones before them, such as
/// one that becomes the same as another. No body may be left out whole, nothing is repeated that may be left out, and no rules of
/// one symbol alone go round in a circle.
pub fn rules_of(rng: &mut Rng, mut can_stand: impl FnMut(&[Rule]) -> bool) -> Vec<Rule> {
    let mut rules = word_rules(rng);
    for _ in 0..rng.within(1..=5) {
        let mut rule = any_rule(rng);
        let is_unsound = least(&rule.body) == 0 || alone(&rule.body).iter().any(|symbol| *symbol <= rule.head);
        if is_unsound || repeats_nothing(&rule.body) {
            rule.body.retain(|element| !repeats_nothing(std::slice::from_ref(element)));
            let at = rng.below(rule.body.len() + 1);
            rule.body.insert(at, word(rng));
            rule.translation = None;
        }
        rules.push(rule);
        if !can_stand(&rules) {
            rules.pop();
        }
    }
    rng.shuffle(&mut rules);
    rules
}

/// A rule of a word alone for each symbol.
pub fn word_rules(rng: &mut Rng) -> Vec<Rule> {
    (0..SYMBOLS)
        .map(|head| Rule { head, weight: rng.within(0..=9), body: vec![word(rng)], translation: None })
        .collect()
}

/// Any rule.
pub fn any_rule(rng: &mut Rng) -> Rule {
    let (head, length) = (rng.within(0..=SYMBOLS - 1), rng.within(1..=3));
    let body = body(rng, length, 2);
    let weight = rng.within(0..=9);
    let translation = rng.once_in(2).then(|| translation(rng, &body));
    Rule { head, weight, body, translation }
}

/// The numbers of symbols and of words that random rules have.
pub const SYMBOLS: u32 = 3;
pub const WORDS: u32 = 5;

fn word(rng: &mut Rng) -> Element {
    Element { atom: Atom::Word(rng.within(0..=WORDS - 1)), times: Times::Once }
}

/// The symbols that a body can be alone, where all else in it is left out.
pub fn alone(body: &[Element]) -> Vec<u32> {
    let others = |at: usize| body.iter().enumerate().filter(move |(other, _)| *other != at);
    let can_be = (0..body.len()).filter(|at| others(*at).all(|(_, element)| element.least() == 0));
    let symbols = can_be.flat_map(|at| match &body[at].atom {
        Atom::Symbol(symbol) => vec![*symbol],
        Atom::Word(_) => Vec::new(),
        Atom::Group(choices) => choices.iter().flat_map(|(body, _)| alone(body)).collect(),
    });
    symbols.collect()
}

/// Whether something is repeated in a body that may be left out.
pub fn repeats_nothing(body: &[Element]) -> bool {
    body.iter().any(|Element { atom, times }| match atom {
        Atom::Group(choices) => {
            let may_be_empty = choices.iter().any(|(body, _)| least(body) == 0);
            let is_repeated = matches!(times, Times::Plus | Times::Star);
            is_repeated && may_be_empty || choices.iter().any(|(body, _)| repeats_nothing(body))
        }
        _ => false,
    })
}

/// Some of a body's parts, in any order.
fn translation(rng: &mut Rng, body: &[Element]) -> Vec<u32> {
    let count = rng.within(0..=3);
    (0..count).map(|_| rng.below(body.len()) as u32).collect()
}

fn body(rng: &mut Rng, length: u32, depth: u32) -> Vec<Element> {
    (0..length).map(|_| element(rng, depth)).collect()
}

fn element(rng: &mut Rng, depth: u32) -> Element {
    let atom = match rng.within(0..=5) {
        0 if depth > 0 => {
            let count = rng.within(1..=3);
            Atom::Group((0..count).map(|_| choice(rng, depth - 1)).collect())
        }
        0..=2 => Atom::Word(rng.within(0..=WORDS - 1)),
        _ => Atom::Symbol(rng.within(0..=SYMBOLS - 1)),
    };
    let times = match rng.within(0..=7) {
        0 => Times::Plus,
        1 => Times::Star,
        2 | 3 => Times::Optional(rng.within(0..=9)),
        _ => Times::Once,
    };
    Element { atom, times }
}

fn choice(rng: &mut Rng, depth: u32) -> (Vec<Element>, u32) {
    let length = rng.within(1..=2);
    (body(rng, length, depth), rng.within(0..=9))
}

/// The least number of words of a body.
pub fn least(body: &[Element]) -> usize {
    body.iter().map(Element::least).sum()
}

impl Element {
    fn least(&self) -> usize {
        match (self.times, &self.atom) {
            (Times::Optional(_) | Times::Star, _) => 0,
            (_, Atom::Group(choices)) => choices.iter().map(|(body, _)| least(body)).min().unwrap_or(0),
            _ => 1,
        }
    }
}

/// Parts of a tree, each with the number of the body's part that it is for, and what they cost beside nodes of their own.
type Found = (Vec<(u32, Part)>, u32);

/// The derivations of words by rules, as trees of the text.
pub struct Derivations<'a> {
    pub rules: &'a [Rule],
    pub words: &'a [u32],
}

impl Derivations<'_> {
    /// The trees of a symbol over a span.
    pub fn of_symbol(&self, symbol: u32, span: [usize; 2]) -> Vec<Tree> {
        let rules = (0..).zip(self.rules).filter(|(_, rule)| rule.head == symbol);
        let trees = rules.flat_map(|(number, rule)| {
            let found = self.of_body(&rule.body, 0, None, span);
            found.into_iter().map(move |(parts, weight)| {
                let (elements, parts) = parts.into_iter().unzip();
                Tree { rule: number, head: symbol, weight: rule.weight + weight, parts, elements }
            })
        });
        trees.collect()
    }

    /// The ways in which the parts of a body from a number on derive a span. Those within a part are all for that.
    fn of_body(&self, body: &[Element], from: u32, within: Option<u32>, [begin, end]: [usize; 2]) -> Vec<Found> {
        let Some((first, rest)) = body.split_first() else {
            return if begin == end { vec![(Vec::new(), 0)] } else { Vec::new() };
        };
        let number = within.unwrap_or(from);
        let mut all = Vec::new();
        // what stands beside a symbol that may derive the same again has a word, or a circle was refused
        for middle in (begin + first.least()..=end).filter(|middle| middle + least(rest) <= end) {
            let lefts = self.of_element(first, number, [begin, middle]);
            if lefts.is_empty() {
                continue;
            }
            for (parts, weight) in self.of_body(rest, from + 1, within, [middle, end]) {
                all.extend(lefts.iter().map(|(left, cost)| ([&left[..], &parts].concat(), cost + weight)));
            }
        }
        all
    }

    fn of_element(&self, element: &Element, number: u32, span: [usize; 2]) -> Vec<Found> {
        let is_empty = span[0] == span[1];
        let absent = |cost| if is_empty { vec![(Vec::new(), cost)] } else { Vec::new() };
        match element.times {
            Times::Once => self.of_atom(&element.atom, number, span),
            Times::Optional(cost) => [self.of_atom(&element.atom, number, span), absent(cost)].concat(),
            Times::Plus => self.repeated(&element.atom, number, span),
            Times::Star => [self.repeated(&element.atom, number, span), absent(0)].concat(),
        }
    }

    fn repeated(&self, atom: &Atom, number: u32, [begin, end]: [usize; 2]) -> Vec<Found> {
        let mut all = self.of_atom(atom, number, [begin, end]);
        for middle in begin + 1..end {
            let lefts = self.of_atom(atom, number, [begin, middle]);
            if lefts.is_empty() {
                continue;
            }
            for (parts, weight) in self.repeated(atom, number, [middle, end]) {
                all.extend(lefts.iter().map(|(left, cost)| ([&left[..], &parts].concat(), cost + weight)));
            }
        }
        all
    }

    fn of_atom(&self, atom: &Atom, number: u32, [begin, end]: [usize; 2]) -> Vec<Found> {
        match atom {
            Atom::Word(word) if end == begin + 1 && self.words[begin] == *word => {
                vec![(vec![(number, Part::Word { word: *word, number: begin })], 0)]
            }
            Atom::Word(_) => Vec::new(),
            Atom::Symbol(_) if begin == end => Vec::new(),
            Atom::Symbol(symbol) => {
                let trees = self.of_symbol(*symbol, [begin, end]).into_iter();
                trees.map(|tree| (vec![(number, Part::Tree(tree))], 0)).collect()
            }
            Atom::Group(choices) => {
                let found = choices.iter().flat_map(|(body, weight)| {
                    let found = self.of_body(body, 0, Some(number), [begin, end]).into_iter();
                    found.map(move |(parts, cost)| (parts, cost + weight))
                });
                found.collect()
            }
        }
    }
}

/// What a tree becomes.
pub fn translation_of(rules: &[Rule], tree: &Tree) -> String {
    let part = |part: &Part| match part {
        Part::Word { word, .. } => format!("w{word}"),
        Part::Tree(tree) => translation_of(rules, tree),
    };
    let parts: Vec<(u32, String)> = tree.elements.iter().copied().zip(tree.parts.iter().map(part)).collect();
    let of = |wanted: Option<u32>| {
        let parts = parts.iter().filter(|(element, _)| wanted.is_none_or(|wanted| wanted == *element));
        parts.map(|(_, text)| text.as_str()).collect::<Vec<_>>().join(" ")
    };
    match &rules[tree.rule as usize].translation {
        None => of(None),
        Some(wanted) => format!("<{}>", wanted.iter().map(|part| of(Some(*part))).collect::<Vec<_>>().join("-")),
    }
}
