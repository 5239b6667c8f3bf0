//! The N best trees of each cell of a chart, from short spans to long ones.
//!
//! A cell is a head and a span. Its trees are kept as the rule, the split and the ranks of both parts in their own
//! cells, which hold at least as many ranks as any tree among the N best can need.

use crate::heard::Offers;
use crate::reading;
use spireyerba::{Body, Grammar, Graph, Reading, Utterance};
use std::collections::BinaryHeap;

/// The readings of the `wanted` least derivations, in the order.
pub fn least(grammar: &Grammar, utterance: &Utterance, wanted: usize) -> Vec<Reading> {
    least_of(grammar, &Offers::of_slots(utterance), wanted).into_iter().map(reading::without_path).collect()
}

/// The readings of the `wanted` least derivations of a word graph, in the order.
pub fn least_of_graph(grammar: &Grammar, graph: &Graph, wanted: usize) -> Vec<Reading> {
    least_of(grammar, &Offers::of_graph(graph), wanted)
}

fn least_of(grammar: &Grammar, offers: &Offers, wanted: usize) -> Vec<Reading> {
    let chart = Chart::fill(grammar, offers, wanted);
    let cell = chart.cell(0, 0, offers.last);
    let spelled = |(rank, entry): (usize, &Entry)| {
        let (mut walk, mut path) = (Vec::new(), Vec::new());
        chart.spell(0, 0, offers.last, rank, (&mut walk, &mut path));
        Reading::of_path(entry.weight, walk, path)
    };
    cell.iter().enumerate().map(spelled).collect()
}

/// A tree of a cell; the derived order, field by field, is that of document 02, N6. A leaf has split, left and right 0.
#[derive(Clone, Copy, PartialEq, Eq, PartialOrd, Ord)]
struct Entry {
    weight: u32,
    costs: u32,
    rule: usize,
    split: usize,
    left: usize,
    right: usize,
}

struct Chart<'a> {
    grammar: &'a Grammar,
    offers: &'a Offers,
    cells: Vec<Vec<Entry>>,
}

impl<'a> Chart<'a> {
    fn fill(grammar: &'a Grammar, offers: &'a Offers, wanted: usize) -> Self {
        let mut chart = Self { grammar, offers, cells: Vec::new() };
        let last = offers.last;
        chart.cells = vec![Vec::new(); chart.index(grammar.symbols - 1, last - 1, last) + 1];
        for length in 1..=last {
            for from in 0..=last - length {
                for head in 0..grammar.symbols {
                    let best = chart.best_of(head, from, from + length, wanted);
                    let index = chart.index(head, from, from + length);
                    chart.cells[index] = best;
                }
            }
        }
        chart
    }

    fn index(&self, head: u32, from: usize, to: usize) -> usize {
        (from * (self.offers.last + 1) + to) * self.grammar.symbols as usize + head as usize
    }

    fn cell(&self, head: u32, from: usize, to: usize) -> &[Entry] {
        &self.cells[self.index(head, from, to)]
    }

    fn best_of(&self, head: u32, from: usize, to: usize, wanted: usize) -> Vec<Entry> {
        let mut best = Best { kept: BinaryHeap::new(), wanted };
        for (rule, of_rule) in self.grammar.rules.iter().enumerate().filter(|(_, rule)| rule.head == head) {
            match of_rule.body {
                Body::Word(word) => {
                    if let Some(offer) = self.offers.get(from, to, word) {
                        let weight = of_rule.weight + offer.cost;
                        best.offer(Entry { weight, costs: offer.cost, rule, split: 0, left: 0, right: 0 });
                    }
                }
                Body::Pair(first, second) => {
                    for split in from + 1..to {
                        let (lefts, rights) = (self.cell(first, from, split), self.cell(second, split, to));
                        best.offer_pairs(
                            Entry { weight: of_rule.weight, costs: 0, rule, split, left: 0, right: 0 },
                            lefts,
                            rights,
                        );
                    }
                }
            }
        }
        best.kept.into_sorted_vec()
    }

    /// Appends the walk and the path of the tree of a rank.
    fn spell(&self, head: u32, from: usize, to: usize, rank: usize, (walk, path): (&mut Vec<u32>, &mut Vec<u32>)) {
        let entry = self.cell(head, from, to)[rank];
        walk.push(entry.rule as u32);
        match self.grammar.rules[entry.rule].body {
            Body::Word(word) => path.extend(self.offers.get(from, to, word).map(|offer| offer.number)),
            Body::Pair(first, second) => {
                self.spell(first, from, entry.split, entry.left, (walk, path));
                self.spell(second, entry.split, to, entry.right, (walk, path));
            }
        }
    }
}

/// The least entries offered so far, the greatest of them on top.
struct Best {
    kept: BinaryHeap<Entry>,
    wanted: usize,
}

impl Best {
    /// Keeps an entry if it is among the least; says whether it did.
    fn offer(&mut self, entry: Entry) -> bool {
        if self.kept.len() == self.wanted {
            if self.kept.peek().is_some_and(|greatest| entry > *greatest) {
                return false;
            }
            self.kept.pop();
        }
        self.kept.push(entry);
        true
    }

    /// Offers the pairings of both cells' trees. Once one is not kept, none with later parts is.
    fn offer_pairs(&mut self, rule: Entry, lefts: &[Entry], rights: &[Entry]) {
        for (left, of_left) in lefts.iter().enumerate() {
            for (right, of_right) in rights.iter().enumerate() {
                let weight = rule.weight + of_left.weight + of_right.weight;
                let costs = of_left.costs + of_right.costs;
                if !self.offer(Entry { weight, costs, left, right, ..rule }) {
                    if right == 0 {
                        return;
                    }
                    break;
                }
            }
        }
    }
}
