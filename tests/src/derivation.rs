//! Derivations, their weight, their order, and all of them (document 01, "Grammars and derivations"; document 02, N1, N3 and N6).

use crate::heard::Offers;
use spireyerba::{Body, Grammar, Graph, Reading, Utterance};
use std::cmp::Ordering;
use std::collections::HashMap;
use std::rc::Rc;

/// A tree over some slots, or over some edges of a path.
#[derive(Debug)]
pub struct Tree {
    pub rule: usize,
    pub weight: u32,
    /// The sum of the costs used.
    pub costs: u32,
    /// The place where it ends: in front of the slot of that number.
    pub end: usize,
    pub kind: Kind,
}

#[derive(Debug)]
pub enum Kind {
    /// A word rule over the edge of a number.
    Leaf(u32),
    /// A pair rule that joins a left part with a right part.
    Join(Rc<Tree>, Rc<Tree>),
}

impl Tree {
    /// The rule number of each node: node, left part, right part.
    pub fn walk(&self) -> Vec<u32> {
        let mut walk = vec![self.rule as u32];
        if let Kind::Join(left, right) = &self.kind {
            walk.extend(left.walk());
            walk.extend(right.walk());
        }
        walk
    }

    /// The edge of each word.
    pub fn path(&self) -> Vec<u32> {
        match &self.kind {
            Kind::Leaf(edge) => vec![*edge],
            Kind::Join(left, right) => [left.path(), right.path()].concat(),
        }
    }

    pub fn reading(&self) -> Reading {
        Reading::of_slots(self.weight, self.walk())
    }

    pub fn graph_reading(&self) -> Reading {
        Reading::of_path(self.weight, self.walk(), self.path())
    }
}

/// The order of two trees with one head and one span.
pub fn order(a: &Tree, b: &Tree) -> Ordering {
    let parts = || match (&a.kind, &b.kind) {
        // fewer slots in the left part are a lower end of it
        (Kind::Join(a_left, a_right), Kind::Join(b_left, b_right)) => {
            (a_left.end.cmp(&b_left.end)).then_with(|| order(a_left, b_left)).then_with(|| order(a_right, b_right))
        }
        // leaves of one rule over one span are the same leaf
        _ => Ordering::Equal,
    };
    a.weight.cmp(&b.weight).then(a.costs.cmp(&b.costs)).then(a.rule.cmp(&b.rule)).then_with(parts)
}

/// A head, and the places from where to where its trees go.
type Span = (u32, usize, usize);

/// All derivations of an utterance, in the order; nothing if there are more than `most` trees to make on the way.
pub fn ranked(grammar: &Grammar, utterance: &Utterance, most: usize) -> Option<Vec<Rc<Tree>>> {
    ranked_of(grammar, &Offers::of_slots(utterance), most)
}

/// All derivations of a word graph likewise.
pub fn ranked_of_graph(grammar: &Grammar, graph: &Graph, most: usize) -> Option<Vec<Rc<Tree>>> {
    ranked_of(grammar, &Offers::of_graph(graph), most)
}

fn ranked_of(grammar: &Grammar, offers: &Offers, most: usize) -> Option<Vec<Rc<Tree>>> {
    let mut forest = Forest { grammar, offers, trees: HashMap::new(), left: most };
    let mut derivations = forest.trees((0, 0, offers.last))?.to_vec();
    derivations.sort_by(|a, b| order(a, b));
    Some(derivations)
}

/// The trees made so far, by head and span.
struct Forest<'a> {
    grammar: &'a Grammar,
    offers: &'a Offers,
    trees: HashMap<Span, Rc<[Rc<Tree>]>>,
    left: usize,
}

impl Forest<'_> {
    fn trees(&mut self, span: Span) -> Option<Rc<[Rc<Tree>]>> {
        if let Some(trees) = self.trees.get(&span) {
            return Some(trees.clone());
        }
        let grammar = self.grammar;
        let mut trees = Vec::new();
        for (number, rule) in grammar.rules.iter().enumerate().filter(|(_, rule)| rule.head == span.0) {
            match rule.body {
                Body::Word(word) => trees.extend(self.leaf(span, number, word)),
                Body::Pair(first, second) => self.join(span, number, (first, second), &mut trees)?,
            }
        }
        let trees: Rc<[Rc<Tree>]> = trees.into();
        self.trees.insert(span, trees.clone());
        Some(trees)
    }

    /// A leaf spans one slot or one edge, which offers its rule's word.
    fn leaf(&self, (_, from, to): Span, number: usize, word: u32) -> Option<Rc<Tree>> {
        let offer = self.offers.get(from, to, word)?;
        let weight = self.grammar.rules[number].weight + offer.cost;
        Some(Rc::new(Tree { rule: number, weight, costs: offer.cost, end: to, kind: Kind::Leaf(offer.number) }))
    }

    /// Each left part joined with each right part, over adjoining spans.
    fn join(&mut self, span: Span, number: usize, body: (u32, u32), trees: &mut Vec<Rc<Tree>>) -> Option<()> {
        let (_, from, to) = span;
        for split in from + 1..to {
            let (lefts, rights) = (self.trees((body.0, from, split))?, self.trees((body.1, split, to))?);
            self.left = self.left.checked_sub(lefts.len() * rights.len())?;
            for left in lefts.iter() {
                for right in rights.iter() {
                    let weight = self.grammar.rules[number].weight + left.weight + right.weight;
                    let costs = left.costs + right.costs;
                    let kind = Kind::Join(left.clone(), right.clone());
                    trees.push(Rc::new(Tree { rule: number, weight, costs, end: to, kind }));
                }
            }
        }
        Some(())
    }
}
