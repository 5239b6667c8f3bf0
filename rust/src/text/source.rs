//! The rules of a text beside those that they become: rule numbers, trees and translations as the text has them.

use super::translation::Template;
use super::NamedGrammar;
use crate::{Part, Reading, Tree};
use std::collections::BTreeMap;

/// The rules as the text has them, where that says more than the rules that they become.
#[derive(Clone, Debug, PartialEq, Eq)]
pub(super) struct Source {
    pub(super) rules: Vec<SourceRule>,
    /// How many symbols the text has. Those behind them are helpers.
    pub(super) symbols: u32,
    /// Where each rule of the grammar comes from, but for those that the library adds.
    pub(super) expansions: Vec<Expansion>,
    /// The symbols and the words in the order in which the rules mention them.
    pub(super) met: [Vec<u32>; 2],
}

#[derive(Clone, Debug, PartialEq, Eq)]
pub(super) struct SourceRule {
    pub(super) head: u32,
    /// What stands behind the arrow.
    pub(super) text: String,
    pub(super) translation: Option<Template>,
}

/// Where a rule comes from.
#[derive(Clone, Debug, PartialEq, Eq)]
pub(super) struct Expansion {
    /// The rule of the text for which it was made.
    pub(super) rule: u32,
    /// What stands in a tree where it is used; nothing if it joins the last items of a longer body.
    pub(super) parts: Option<Parts>,
}

/// A piece of a tree, in which what a rule's items derive takes the places of the items.
#[derive(Clone, Debug, PartialEq, Eq)]
pub(super) struct Parts {
    /// The weight of a rule that has no node, which goes to the node above it.
    pub(super) weight: u32,
    pub(super) pieces: Vec<Piece>,
}

/// A piece, and which part of the body of the rule above it is for.
#[derive(Clone, Debug, PartialEq, Eq)]
pub(super) struct Piece {
    pub(super) element: u32,
    pub(super) kind: Kind,
}

#[derive(Clone, Debug, PartialEq, Eq)]
pub(super) enum Kind {
    /// What the next item derives.
    Item,
    /// A node of a rule of the text.
    Node { rule: u32, weight: u32, pieces: Vec<Piece> },
}

impl Expansion {
    /// The rules of the text whose nodes this rule makes, from the top down.
    pub(super) fn shown(&self) -> Vec<u32> {
        let mut rules = Vec::new();
        let mut pieces = self.parts.as_ref().map(|parts| &parts.pieces);
        while let Some([Piece { kind: Kind::Node { rule, pieces: below, .. }, .. }]) = pieces.map(Vec::as_slice) {
            rules.push(*rule);
            pieces = Some(below);
        }
        rules
    }
}

/// What stands below a node for one item: parts, and a weight of theirs that is the node's.
#[derive(Default)]
struct Below {
    weight: u32,
    parts: Vec<Part>,
}

impl Source {
    /// The tree as the text has it of a tree of the grammar's rules, of which these are the library's helpers.
    pub(super) fn tree(&self, tree: Tree) -> Option<Tree> {
        let mut below = self.below(tree);
        match below.pop()?.parts.pop()? {
            Part::Tree(tree) => Some(tree),
            Part::Word { .. } => None,
        }
    }

    /// What stands below a node of the grammar's tree, for each item that it stands for: one, but for the ends of longer bodies.
    fn below(&self, tree: Tree) -> Vec<Below> {
        let items: Vec<Below> = tree
            .parts
            .into_iter()
            .flat_map(|part| match part {
                Part::Word { .. } => vec![Below { weight: 0, parts: vec![part] }],
                Part::Tree(tree) => self.below(tree),
            })
            .collect();
        match self.expansions.get(tree.rule as usize).and_then(|expansion| expansion.parts.as_ref()) {
            None => items,
            Some(Parts { weight, pieces }) => {
                let mut below = self.filled(pieces, &mut items.into_iter()).0;
                below.weight += weight;
                vec![below]
            }
        }
    }

    /// The pieces with what stands below the items in their places, and which part of the body each of them is for.
    fn filled(&self, pieces: &[Piece], items: &mut dyn Iterator<Item = Below>) -> (Below, Vec<u32>) {
        let (mut filled, mut elements) = (Below::default(), Vec::new());
        for Piece { element, kind } in pieces {
            match kind {
                Kind::Item => {
                    let item = items.next().unwrap_or_default();
                    filled.weight += item.weight;
                    filled.parts.extend(item.parts);
                }
                Kind::Node { rule, weight, pieces } => {
                    let (below, elements) = self.filled(pieces, items);
                    let (head, weight) = (self.rules[*rule as usize].head, weight + below.weight);
                    filled.parts.push(Part::Tree(Tree { rule: *rule, head, weight, parts: below.parts, elements }));
                }
            }
            elements.resize(filled.parts.len(), *element);
        }
        (filled, elements)
    }

    /// What a tree as the text has it becomes.
    fn translation(&self, named: &NamedGrammar, tree: &Tree) -> String {
        let parts: Vec<String> = tree.parts.iter().map(|part| self.part_translation(named, part)).collect();
        let joined = |wanted: &dyn Fn(u32) -> bool| {
            let parts =
                parts.iter().zip(&tree.elements).filter(|(part, element)| !part.is_empty() && wanted(**element));
            parts.map(|(part, _)| part.as_str()).collect::<Vec<_>>().join(" ")
        };
        match &self.rules[tree.rule as usize].translation {
            Some(template) => template.filled(|wanted| joined(&|element| element == wanted)),
            None => joined(&|_| true),
        }
    }

    fn part_translation(&self, named: &NamedGrammar, part: &Part) -> String {
        match part {
            Part::Word { word, .. } => named.word(*word).to_owned(),
            Part::Tree(tree) => self.translation(named, tree),
        }
    }
}

impl NamedGrammar {
    /// What a tree becomes by the translations of the text's rules. Without one a rule becomes its parts' translations, with a
    /// blank between two, and a word itself.
    ///
    /// ```
    /// use spireyerba::text::NamedGrammar;
    ///
    /// let text = "Number -> Tens Units? => \"$1$2\"\nTens -> \"twenty\" => \"2\"\nUnits -> \"four\" => \"4\"";
    /// let numbers = NamedGrammar::parse(text)?;
    /// let reading = numbers.grammar.list(&numbers.parse_utterance("twenty 3; four 1")?, 1)?.remove(0);
    /// let tree = numbers.tree(&reading).expect("a walk");
    /// assert_eq!((numbers.sentence(&reading), numbers.translation(&tree)), ("twenty four".into(), "24".into()));
    /// # Ok::<(), spireyerba::Error>(())
    /// ```
    pub fn translation(&self, tree: &Tree) -> String {
        match &self.source {
            Some(source) => source.translation(self, tree),
            None => self.string(&words_below(tree)),
        }
    }

    /// The rules of the text whose nodes a rule of the grammar makes in a tree, from the top down: none for a helper's, and
    /// several where a body is one symbol alone.
    pub fn rules_shown(&self, rule: u32) -> Vec<u32> {
        match &self.source {
            Some(source) => source.expansions.get(rule as usize).map_or(Vec::new(), Expansion::shown),
            None if self.is_marked(rule) => Vec::new(),
            None => vec![rule],
        }
    }

    /// The rule of the text for which a rule of the grammar was made, if the library did not add it.
    pub fn rule_behind(&self, rule: u32) -> Option<u32> {
        match &self.source {
            Some(source) => source.expansions.get(rule as usize).map(|expansion| expansion.rule),
            None => (rule < self.own_rules()).then_some(rule),
        }
    }

    /// Whether some rule of the text says what it becomes.
    pub fn has_translations(&self) -> bool {
        self.source.as_ref().is_some_and(|source| source.rules.iter().any(|rule| rule.translation.is_some()))
    }

    /// Whether some rules of the text are written out as several of the grammar's.
    pub fn is_written_out(&self) -> bool {
        self.source.as_ref().is_some_and(|source| {
            !source.expansions.iter().map(|expansion| expansion.rule).eq(0..source.rules.len() as u32)
        })
    }

    /// The numbers of the rules of the text that a reading uses, in the order of its tree's nodes: a node before what is below it.
    pub fn rules_of(&self, reading: &Reading) -> Vec<u32> {
        reading.walk.iter().flat_map(|rule| self.rules_shown(*rule)).collect()
    }
}

impl NamedGrammar {
    /// Of each rule of the text that a reading uses, what it costs each time, from the least. Marked rules that cost nothing are left
    /// out.
    pub fn rule_weights(&self, reading: &Reading) -> BTreeMap<u32, Vec<u32>> {
        let mut uses = BTreeMap::<u32, Vec<u32>>::new();
        match self.source.as_ref().and(self.tree(reading)) {
            Some(tree) => add_uses(&tree, &mut uses),
            None => {
                let weighed = reading.walk.iter().map(|&rule| (rule, self.grammar.rules[rule as usize].weight));
                let shown = weighed.filter(|(rule, weight)| *weight > 0 || !self.is_marked(*rule));
                shown.for_each(|(rule, weight)| uses.entry(rule).or_default().push(weight));
            }
        }
        uses.values_mut().for_each(|weights| weights.sort_unstable());
        uses
    }
}

/// Adds the rules of a tree with what they cost.
fn add_uses(tree: &Tree, uses: &mut BTreeMap<u32, Vec<u32>>) {
    uses.entry(tree.rule).or_default().push(tree.weight);
    tree.parts.iter().for_each(|part| {
        if let Part::Tree(tree) = part {
            add_uses(tree, uses);
        }
    });
}

/// The words below a node, in their order.
fn words_below(tree: &Tree) -> Vec<u32> {
    let words = tree.parts.iter().flat_map(|part| match part {
        Part::Word { word, .. } => vec![*word],
        Part::Tree(tree) => words_below(tree),
    });
    words.collect()
}
