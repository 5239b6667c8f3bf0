//! The check of a reading (document 01, "Where each check stands"; document 02, N1 and N3).

use crate::graph::slots_of_path;
use crate::{grammar, graph_reading, heard, reading, utterance};
use spireyerba::{Body, Grammar, Graph, Heard, Refusal, Utterance};

/// Answers that the reading passes.
pub fn check(grammar: &[u8], heard: &[u8], reading: &[u8]) -> Result<(), Refusal> {
    let grammar = grammar::from_block(grammar)?;
    let (given, weight, only_fill_left) = match heard::from_block(&grammar, heard)? {
        Heard::Slots(utterance) => {
            let (reading, only_fill_left) = reading::from_block(&grammar, utterance.slots.len(), reading)?;
            (reading.weight, weight_of_walk(&grammar, &utterance, &reading.walk), only_fill_left)
        }
        Heard::Graph(graph) => {
            let fields = graph_reading::from_block(&grammar, &graph, reading)?;
            let (walk, path, only_fill_left) = fields.numbers.ok_or(Refusal::ReadingWalk)?;
            (fields.weight, weight_on_path(&grammar, &graph, &walk, &path), only_fill_left)
        }
    };
    if given != weight.ok_or(Refusal::ReadingWalk)? {
        return Err(Refusal::ReadingWeight);
    }
    if !only_fill_left {
        return Err(Refusal::ReadingFill);
    }
    Ok(())
}

/// The weight of the derivation of a graph whose walk and path the numbers are, if they are one's: a derivation of the slots
/// that offer just the words of the path.
pub fn weight_on_path(grammar: &Grammar, graph: &Graph, walk: &[u32], path: &[u32]) -> Option<u32> {
    weight_of_walk(grammar, &slots_of_path(graph, path)?, walk)
}

/// The weight of the derivation whose walk the numbers are, if they are one's.
pub fn weight_of_walk(grammar: &Grammar, utterance: &Utterance, walk: &[u32]) -> Option<u32> {
    let utterance = &utterance::struck_out(utterance);
    let mut walker = Walker { grammar, utterance, walk, slot: 0 };
    let weight = walker.part(0)?;
    let whole = walker.walk.is_empty() && walker.slot == utterance.slots.len();
    whole.then_some(weight)
}

/// What is left of a walk over an utterance that is struck out, and the first slot that is not yet spanned.
struct Walker<'a> {
    grammar: &'a Grammar,
    utterance: &'a Utterance,
    walk: &'a [u32],
    slot: usize,
}

impl Walker<'_> {
    /// Takes the numbers of one tree with this head, and gives its weight.
    fn part(&mut self, head: u32) -> Option<u32> {
        let (&number, rest) = self.walk.split_first()?;
        self.walk = rest;
        let rule = self.grammar.rules.get(number as usize).filter(|rule| rule.head == head)?;
        match rule.body {
            Body::Word(word) => {
                let cost = utterance::cost(self.utterance, self.slot, word)?;
                self.slot += 1;
                Some(rule.weight + cost)
            }
            Body::Pair(first, second) => Some(rule.weight + self.part(first)? + self.part(second)?),
        }
    }
}
