//! Rules as their text has them, written out as an office's rules.
//!
//! A part that may be left out makes two bodies of one, and a group as many as it has; a group of words or of longer bodies, and what
//! is repeated, has a symbol of its own. What is left of bodies that are one symbol alone then takes over that symbol's rules.
//! At last bodies of three items and more become pairs: equal ends of bodies have one symbol. Each way to use the rules of the
//! text is one way to use those that they become, with the same weight.

use super::notation::{Alternative, Atom, Choice, Element, Times, Written};
use super::room::{GROUPS, JOINTS};
use super::rule_fault::RuleFault;
use super::source::{Expansion, Kind, Parts, Piece};
use crate::limits::{MAX_RULES, MAX_WEIGHT};
use crate::{Error, Item, Office, OfficeRule, Position};
use std::collections::HashMap;

/// What the rules of a text become.
pub(super) struct Expanded {
    pub(super) office: Office,
    pub(super) expansions: Vec<Expansion>,
    /// Of each rule the rule of the text in whose body its items stand.
    pub(super) makers: Vec<u32>,
    /// The names of the helpers behind the symbols of the text, and what they are for.
    pub(super) names: Vec<String>,
    pub(super) kinds: Vec<usize>,
}

/// Writes out the rules of a text with so many words.
pub(super) fn expanded(rules: &[Alternative], names: &Written) -> Result<Expanded, Error> {
    let mut forms = Forms { names: names.symbols.to_vec(), words: names.words, ..Forms::new(names.symbols.len()) };
    for (number, rule) in (0..).zip(rules) {
        forms.owner = number;
        forms.rule(rule)?;
    }
    let alone = Alone::new(&forms).rules()?;
    Ok(Pairs::of(forms, alone))
}

/// One way to take a body.
#[derive(Clone)]
struct Form {
    items: Vec<Item>,
    /// Of each item which part of the rule's body it is for.
    elements: Vec<u32>,
    weight: u32,
    /// Where what was left out or chosen last stands, or the body.
    place: Position,
    /// Which way was taken at each place where there are several.
    choices: Vec<(Position, usize)>,
}

impl Form {
    fn of(items: &[Item], element: u32, weight: u32, place: Position) -> Self {
        let choices = Vec::new();
        Self { items: items.to_vec(), elements: vec![element; items.len()], weight, place, choices }
    }

    /// This one, and another behind it, which is one way of several at a place.
    fn and(&self, next: &Self, choice: Option<(Position, usize)>) -> Self {
        Self {
            items: [&self.items[..], &next.items].concat(),
            elements: [&self.elements[..], &next.elements].concat(),
            weight: self.weight.saturating_add(next.weight),
            place: if choice.is_some() { next.place } else { self.place },
            choices: [&self.choices, &next.choices, choice.as_slice()].concat(),
        }
    }

    /// Where another stands that becomes the same: of the same body at another place where both differ.
    fn beside(&self, other: &Self) -> Position {
        let differs = |choice: &&(Position, usize)| !other.choices.contains(choice) && choice.0 != self.place;
        match other.place == self.place {
            true => self.choices.iter().find(differs).map_or(other.place, |(place, _)| *place),
            false => other.place,
        }
    }
}

/// A rule whose body may be one symbol alone.
struct Simple {
    head: u32,
    /// The rule of the text for which it is, and whether it has a node in a tree.
    owner: u32,
    is_shown: bool,
    form: Form,
}

/// The bodies of rules, with nothing left out, chosen or repeated in them.
struct Forms<'a> {
    rules: Vec<Simple>,
    /// The names of all symbols, and what those behind the text's are for.
    names: Vec<String>,
    kinds: Vec<usize>,
    words: &'a [String],
    /// The symbol of each item that is repeated, and of each group.
    repetitions: HashMap<Item, u32>,
    groups: HashMap<Vec<(Vec<Item>, u32)>, u32>,
    own: usize,
    /// The rule of the text at hand.
    owner: u32,
}

impl Forms<'_> {
    fn new(own: usize) -> Self {
        let (repetitions, groups) = (HashMap::new(), HashMap::new());
        let (rules, names, kinds) = (Vec::new(), Vec::new(), Vec::new());
        Self { rules, names, kinds, words: &[], repetitions, groups, own, owner: 0 }
    }

    fn written(&self) -> Written<'_> {
        Written { symbols: &self.names, words: self.words }
    }

    fn rule(&mut self, rule: &Alternative) -> Result<(), Error> {
        let forms = self.body(&rule.body, None, rule.place)?;
        let head = rule.head;
        if let Some(empty) = forms.iter().find(|form| form.items.is_empty()) {
            let head = self.names[head as usize].clone();
            return Err(Error::at(empty.place, RuleFault::MayBeEmpty { head }.into()));
        }
        let owner = self.owner;
        self.rules.extend(forms.into_iter().map(|mut form| {
            form.weight = form.weight.saturating_add(rule.weight);
            Simple { head, owner, is_shown: true, form }
        }));
        Ok(())
    }

    /// The ways to take a body, of which the parts are numbered, or all have the number of one that they are in.
    fn body(&mut self, body: &[Element], within: Option<u32>, place: Position) -> Result<Vec<Form>, Error> {
        let mut forms = vec![Form::of(&[], 0, 0, place)];
        let is_whole = body.len() == 1 && within.is_none();
        for (number, element) in (0..).zip(body) {
            let next = self.element(element, within.unwrap_or(number), is_whole)?;
            if forms.len() * next.len() > MAX_RULES as usize {
                return Err(Error::at(element.place, RuleFault::ManyForms.into()));
            }
            let is_choice = next.len() > 1;
            let choice = |way| is_choice.then_some((element.place, way));
            let next: Vec<_> = next.iter().enumerate().map(|(way, next)| (next, choice(way))).collect();
            forms = forms.iter().flat_map(|form| next.iter().map(|(next, choice)| form.and(next, *choice))).collect();
        }
        Ok(forms)
    }

    /// The ways to take a part of a body.
    fn element(&mut self, element: &Element, number: u32, is_whole: bool) -> Result<Vec<Form>, Error> {
        let absent = |weight| Form::of(&[], number, weight, element.place);
        Ok(match element.times {
            Times::Once => self.atom(&element.atom, number, is_whole, element.place)?,
            Times::Optional { absence } => {
                let mut forms = self.atom(&element.atom, number, is_whole, element.place)?;
                forms.push(absent(absence));
                forms
            }
            Times::Plus => self.repeated(element, number)?.into(),
            Times::Star => {
                let [once, more] = self.repeated(element, number)?;
                vec![once, more, absent(0)]
            }
        })
    }

    /// The ways to take what stands there once. A group that is not all of a body has a symbol, if its bodies can be that symbol's.
    fn atom(&mut self, atom: &Atom, number: u32, is_whole: bool, place: Position) -> Result<Vec<Form>, Error> {
        let choices = match atom {
            Atom::Item(item) => return Ok(vec![Form::of(&[*item], number, 0, place)]),
            Atom::Group(choices) => choices,
        };
        let forms = self.choices(choices, number)?;
        let can_be_rule = |form: &Form| !matches!(form.items[..], [] | [Item::Symbol(_)]);
        if is_whole || forms.len() == 1 || !forms.iter().all(can_be_rule) {
            return Ok(forms);
        }
        let symbol = self.group(choices, forms);
        Ok(vec![Form::of(&[symbol], number, 0, place)])
    }

    /// The ways to take a group, which are all for the part of the body that it is.
    fn choices(&mut self, choices: &[Choice], number: u32) -> Result<Vec<Form>, Error> {
        let mut forms = Vec::new();
        for choice in choices {
            let of_choice = self.body(&choice.body, Some(number), choice.place)?;
            forms.extend(of_choice.into_iter().map(|mut form| {
                form.weight = form.weight.saturating_add(choice.weight);
                form
            }));
        }
        Ok(forms)
    }

    /// The symbol of a group with these bodies.
    fn group(&mut self, choices: &[Choice], forms: Vec<Form>) -> Item {
        let bodies = forms.iter().map(|form| (form.items.clone(), form.weight)).collect();
        if let Some(&symbol) = self.groups.get(&bodies) {
            return Item::Symbol(symbol);
        }
        let symbol = self.symbol(self.written().group(choices));
        self.groups.insert(bodies, symbol);
        let owner = self.owner;
        self.rules.extend(forms.into_iter().map(|form| Simple { head: symbol, owner, is_shown: false, form }));
        Item::Symbol(symbol)
    }

    /// The ways to take what is repeated: once, or more often, for which there is a symbol.
    fn repeated(&mut self, element: &Element, number: u32) -> Result<[Form; 2], Error> {
        let place = element.place;
        let item = match &element.atom {
            Atom::Item(item) => *item,
            Atom::Group(choices) => {
                let forms = self.choices(choices, number)?;
                match &forms[..] {
                    forms if forms.iter().any(|form| form.items.is_empty()) => {
                        return Err(Error::at(place, RuleFault::RepeatsNothing.into()));
                    }
                    [Form { items, weight: 0, .. }] if items.len() == 1 => items[0],
                    _ => self.group(choices, forms),
                }
            }
        };
        let more = Item::Symbol(self.repetition(item, place));
        Ok([item, more].map(|item| Form::of(&[item], number, 0, place)))
    }

    /// The symbol that stands for an item twice or more often.
    fn repetition(&mut self, item: Item, place: Position) -> u32 {
        if let Some(&symbol) = self.repetitions.get(&item) {
            return symbol;
        }
        let symbol = self.symbol(format!("{}+", self.written().item(item)));
        self.repetitions.insert(item, symbol);
        for last in [item, Item::Symbol(symbol)] {
            let form = Form::of(&[item, last], 0, 0, place);
            self.rules.push(Simple { head: symbol, owner: self.owner, is_shown: false, form });
        }
        symbol
    }

    fn symbol(&mut self, name: String) -> u32 {
        self.names.push(name);
        self.kinds.push(GROUPS);
        self.names.len() as u32 - 1
    }
}

/// A rule whose body is no symbol alone, and the piece of a tree that it stands for.
#[derive(Clone)]
struct Finished {
    owner: u32,
    /// The rule of the text in whose body the items stand.
    maker: u32,
    items: Vec<Item>,
    weight: u32,
    parts: Parts,
    place: Position,
}

/// Rules of one symbol alone take over that symbol's rules.
struct Alone<'a> {
    forms: &'a Forms<'a>,
    /// The numbers of the rules of each symbol.
    of_head: Vec<Vec<usize>>,
    /// What the rules of each symbol become, in their order.
    finished: Vec<Option<Vec<Vec<Finished>>>>,
    /// The symbols on the way to the one at hand.
    above: Vec<u32>,
}

impl<'a> Alone<'a> {
    fn new(forms: &'a Forms) -> Self {
        let mut of_head = vec![Vec::new(); forms.names.len()];
        forms.rules.iter().enumerate().for_each(|(number, rule)| of_head[rule.head as usize].push(number));
        Self { forms, finished: vec![None; of_head.len()], of_head, above: Vec::new() }
    }

    /// What the rules become, with their heads, in their order.
    fn rules(mut self) -> Result<Vec<(u32, Finished)>, Error> {
        (0..self.of_head.len()).try_for_each(|head| self.finish(head as u32))?;
        let mut lists: Vec<_> = self.finished.into_iter().map(|lists| lists.unwrap_or_default().into_iter()).collect();
        let next = |rule: &Simple| {
            let list = lists[rule.head as usize].next().unwrap_or_default();
            list.into_iter().map(|finished| (rule.head, finished)).collect::<Vec<_>>()
        };
        Ok(self.forms.rules.iter().flat_map(next).collect())
    }

    /// Finds what the rules of a symbol become.
    fn finish(&mut self, head: u32) -> Result<(), Error> {
        if self.finished[head as usize].is_some() {
            return Ok(());
        }
        self.above.push(head);
        let forms = self.forms;
        let (mut known, mut lists) = (HashMap::new(), Vec::new());
        for number in self.of_head[head as usize].clone() {
            let rule = &forms.rules[number];
            let list = self.of_rule(rule)?;
            for finished in &list {
                self.check(head, finished, &rule.form, &mut known)?;
            }
            lists.push(list);
        }
        self.finished[head as usize] = Some(lists);
        self.above.pop();
        Ok(())
    }

    /// No rule stands twice, and none weighs too much.
    fn check(
        &self,
        head: u32,
        rule: &Finished,
        form: &'a Form,
        known: &mut HashMap<Vec<Item>, &'a Form>,
    ) -> Result<(), Error> {
        let text = || {
            let written = self.forms.written();
            format!("{} -> {}", written.symbols[head as usize], written.items(&rule.items))
        };
        if let Some(other) = known.insert(rule.items.clone(), form) {
            let other = form.beside(other);
            return Err(Error::at(rule.place, RuleFault::SameRule { rule: text(), other }.into()));
        }
        match rule.weight > MAX_WEIGHT {
            true => Err(Error::at(rule.place, RuleFault::SumTooLarge { rule: text(), sum: rule.weight }.into())),
            false => Ok(()),
        }
    }

    /// What a rule becomes: itself, or as many as the symbol has that is its body.
    fn of_rule(&mut self, rule: &Simple) -> Result<Vec<Finished>, Error> {
        let Simple { owner, form, .. } = rule;
        let (owner, place) = (*owner, form.place);
        let [Item::Symbol(symbol)] = form.items[..] else {
            let pieces = form.elements.iter().map(|&element| Piece { element, kind: Kind::Item }).collect();
            let parts = with_node(rule, Parts { weight: form.weight, pieces });
            let (items, weight) = (form.items.clone(), form.weight);
            return Ok(vec![Finished { owner, maker: owner, items, weight, parts, place }]);
        };
        if let Some(first) = self.above.iter().position(|above| *above == symbol) {
            return Err(Error::at(place, RuleFault::Cycle(self.circle(first)).into()));
        }
        self.finish(symbol)?;
        let below = self.finished[symbol as usize].iter().flatten().flatten();
        let taken_over = below.map(|below| {
            let Parts { weight, pieces } = &below.parts;
            let pieces = pieces.iter().map(|piece| Piece { element: form.elements[0], ..piece.clone() }).collect();
            let sum = below.weight.saturating_add(form.weight);
            let parts = with_node(rule, Parts { weight: weight.saturating_add(form.weight), pieces });
            Finished { owner, maker: below.maker, items: below.items.clone(), weight: sum, parts, place }
        });
        Ok(taken_over.collect())
    }

    /// The symbols of the text on a way that goes round in a circle, from the first to the first.
    fn circle(&self, first: usize) -> Vec<String> {
        let own = self.above[first..].iter().chain([&self.above[first]]);
        let own = own.filter(|symbol| (**symbol as usize) < self.forms.own);
        own.map(|symbol| self.forms.names[*symbol as usize].clone()).collect()
    }
}

/// The piece of a tree of a rule, below a node if the rule has one. Its weight is then the node's.
fn with_node(rule: &Simple, Parts { weight, pieces }: Parts) -> Parts {
    match rule.is_shown {
        false => Parts { weight, pieces },
        true => {
            let kind = Kind::Node { rule: rule.owner, weight, pieces };
            Parts { weight: 0, pieces: vec![Piece { element: 0, kind }] }
        }
    }
}

/// Bodies of at most two items.
struct Pairs<'a> {
    expanded: Expanded,
    own: usize,
    names: Vec<String>,
    words: &'a [String],
    /// The symbol of each end of a body.
    rests: HashMap<Vec<Item>, u32>,
}

impl Pairs<'_> {
    fn of(forms: Forms, rules: Vec<(u32, Finished)>) -> Expanded {
        let Forms { names, kinds, words, own, .. } = forms;
        let office = Office { symbols: 0, words: words.len() as u32, rules: Vec::new() };
        let expanded = Expanded { office, expansions: Vec::new(), makers: Vec::new(), names: Vec::new(), kinds };
        let mut pairs = Pairs { expanded, own, names, words, rests: HashMap::new() };
        let mut later = Vec::new();
        for (head, Finished { owner, maker, items, weight, parts, .. }) in rules {
            let items = pairs.pair(items, maker, &mut later);
            pairs.push(OfficeRule { head, weight, items }, Expansion { rule: owner, parts: Some(parts) }, maker);
        }
        for (rule, maker) in later {
            pairs.push(rule, Expansion { rule: maker, parts: None }, maker);
        }
        pairs.expanded.office.symbols = pairs.names.len() as u32;
        Expanded { names: pairs.names.split_off(pairs.own), ..pairs.expanded }
    }

    fn push(&mut self, rule: OfficeRule, expansion: Expansion, maker: u32) {
        self.expanded.office.rules.push(rule);
        self.expanded.expansions.push(expansion);
        self.expanded.makers.push(maker);
    }

    /// A body with one symbol for what stands behind its first item; rules that are new go to a list.
    fn pair(&mut self, items: Vec<Item>, maker: u32, later: &mut Vec<(OfficeRule, u32)>) -> Vec<Item> {
        if items.len() <= 2 {
            return items;
        }
        let rest = items[1..].to_vec();
        if let Some(&symbol) = self.rests.get(&rest) {
            return vec![items[0], Item::Symbol(symbol)];
        }
        let name = Written { symbols: &self.names, words: self.words }.items(&rest);
        let head = self.names.len() as u32;
        self.names.push(name);
        self.expanded.kinds.push(JOINTS);
        self.rests.insert(rest.clone(), head);
        let body = self.pair(rest, maker, later);
        later.push((OfficeRule { head, weight: 0, items: body }, maker));
        vec![items[0], Item::Symbol(head)]
    }
}
