//! Rules as their text has them: parts that may be left out, repeated or chosen.

use super::scan::quoted;
use super::translation::Template;
use crate::{Item, OfficeRule, Position};

/// A rule as its text has it.
pub(super) struct Alternative {
    pub(super) head: u32,
    pub(super) weight: u32,
    pub(super) body: Vec<Element>,
    pub(super) translation: Option<Template>,
    pub(super) place: Position,
}

/// A part of a body.
pub(super) struct Element {
    pub(super) atom: Atom,
    pub(super) times: Times,
    pub(super) place: Position,
}

pub(super) enum Atom {
    Item(Item),
    Group(Vec<Choice>),
}

/// One of the bodies of a group.
pub(super) struct Choice {
    pub(super) body: Vec<Element>,
    pub(super) weight: u32,
    pub(super) place: Position,
}

/// How often a part stands there.
#[derive(Clone, Copy, PartialEq)]
pub(super) enum Times {
    Once,
    /// Once or not at all, which costs so much.
    Optional {
        absence: u32,
    },
    /// Once or more often.
    Plus,
    /// More often, once, or not at all.
    Star,
}

impl Alternative {
    /// The rule, if an office's sheet has such rules: each part stands there once, and a symbol not alone.
    pub(super) fn plain(&self) -> Option<OfficeRule> {
        let items = self.body.iter().map(|element| match (&element.atom, element.times) {
            (Atom::Item(item), Times::Once) => Some(*item),
            _ => None,
        });
        let items: Vec<Item> = items.collect::<Option<_>>()?;
        match items[..] {
            [Item::Symbol(_)] => None,
            _ => Some(OfficeRule { head: self.head, weight: self.weight, items }),
        }
    }
}

/// The names of what rules have in them.
pub(super) struct Written<'a> {
    pub(super) symbols: &'a [String],
    pub(super) words: &'a [String],
}

impl Written<'_> {
    /// A rule as it is written behind its arrow.
    pub(super) fn rule(&self, rule: &Alternative) -> String {
        let translation = rule.translation.as_ref().map_or(String::new(), |template| format!(" => {template}"));
        format!("{}{}{translation}", self.body(&rule.body), weight(rule.weight))
    }

    fn body(&self, body: &[Element]) -> String {
        body.iter().map(|element| self.element(element)).collect::<Vec<_>>().join(" ")
    }

    fn element(&self, Element { atom, times, .. }: &Element) -> String {
        let atom = match atom {
            Atom::Item(item) => self.item(*item),
            Atom::Group(choices) => self.group(choices),
        };
        match times {
            Times::Once => atom,
            Times::Optional { absence: 0 } => format!("{atom}?"),
            Times::Optional { absence } => format!("{atom}?{absence}"),
            Times::Plus => format!("{atom}+"),
            Times::Star => format!("{atom}*"),
        }
    }

    pub(super) fn group(&self, choices: &[Choice]) -> String {
        let choices = choices.iter().map(|choice| format!("{}{}", self.body(&choice.body), weight(choice.weight)));
        format!("( {} )", choices.collect::<Vec<_>>().join(" | "))
    }

    pub(super) fn item(&self, item: Item) -> String {
        match item {
            Item::Symbol(symbol) => self.symbols[symbol as usize].clone(),
            Item::Word(word) => quoted(&self.words[word as usize]),
        }
    }

    pub(super) fn items(&self, items: &[Item]) -> String {
        items.iter().map(|item| self.item(*item)).collect::<Vec<_>>().join(" ")
    }
}

/// A weight as it stands behind a body.
fn weight(weight: u32) -> String {
    match weight {
        0 => String::new(),
        weight => format!(" [{weight}]"),
    }
}
