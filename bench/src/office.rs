//! Grammars as an office writes them, and what is heard under them: symbols in layers, lists by right recursion, most words under
//! one symbol, and an utterance that the grammar says, with confusions added.

use crate::inputs::Input;
use spireyerba::{Body, Candidate, Edge, Grammar, Graph, Heard, Rule, Utterance};
use spireyerba_tests::seeded::rng::Rng;
use spireyerba_tests::{grammar, heard};
use std::collections::HashSet;
use std::ops::RangeInclusive;

/// The symbols, from the start down. Those of the last layer have words, the others join parts of later layers.
const LAYERS: [RangeInclusive<u32>; 5] = [0..=0, 1..=4, 5..=9, 10..=15, 16..=31];
const SYMBOLS: u32 = 32;
const WORDS: u32 = 184;
/// Each word is under one symbol, and so many are under a second one.
const SECOND_MEANINGS: usize = 16;
const WEIGHT: u32 = 1_000;
/// What was said costs little, a confusion more.
const SAID: RangeInclusive<u32> = 0..=300;
const CONFUSED: RangeInclusive<u32> = 100..=1_000;
/// The words of a slot, or the edges for each step of a graph, and the steps that the longest edge goes over.
const CANDIDATES: usize = 4;
const LONGEST: u32 = 3;
/// The grammars of one size.
const GRAMMARS: usize = 5;

/// Grammars of 32 symbols, some 45 pair rules and 200 word rules, each with an utterance of so many slots.
pub fn of_slots(slots: usize) -> Vec<Input> {
    streams_of_slots(slots, 1).concat()
}

/// The same with word graphs, whose confusions go over up to three steps.
pub fn of_graphs(steps: usize) -> Vec<Input> {
    streams_of_graphs(steps, 1).concat()
}

/// The same grammars, each with so many utterances one after another.
pub fn streams_of_slots(slots: usize, utterances: usize) -> Vec<Vec<Input>> {
    streams("office grammars", (slots, utterances), |rng, grammar, said| Heard::Slots(slots_around(rng, grammar, said)))
}

/// The same with word graphs.
pub fn streams_of_graphs(steps: usize, utterances: usize) -> Vec<Vec<Input>> {
    streams("office grammars, word graphs", (steps, utterances), |rng, grammar, said| {
        Heard::Graph(graph_around(rng, grammar, said))
    })
}

/// The door schedule as it stands in examples/, with slots and with a word graph.
pub fn doors() -> [Input; 2] {
    let input = |name, grammar_block: &[u8], block: &[u8]| {
        let grammar = grammar::from_block(grammar_block).expect("the example");
        let heard = heard::from_block(&grammar, block).expect("the example");
        Input { name, grammar, heard }
    };
    [
        input(
            "door schedule",
            include_bytes!("../../examples/doors/grammar.bin"),
            include_bytes!("../../examples/doors/utterance.bin"),
        ),
        input(
            "door schedule, word graph",
            include_bytes!("../../examples/doors_graph/grammar.bin"),
            include_bytes!("../../examples/doors_graph/utterance.bin"),
        ),
    ]
}

/// Of the seeds whose grammar says a string of such a length, the first ones, each with so many utterances.
fn streams(
    name: &'static str,
    (length, utterances): (usize, usize),
    heard: impl Fn(&mut Rng, &Grammar, &[u32]) -> Heard,
) -> Vec<Vec<Input>> {
    let of_seed = |seed| {
        let rng = &mut Rng::new(seed);
        let grammar = grammar_of_layers(rng);
        let next = |_| {
            let said = say(rng, &grammar, length)?;
            let heard = heard(rng, &grammar, &said);
            Some(Input { name, grammar: grammar.clone(), heard })
        };
        (0..utterances).map(next).collect()
    };
    (0..).filter_map(of_seed).take(GRAMMARS).collect()
}

fn grammar_of_layers(rng: &mut Rng) -> Grammar {
    let mut bodies = HashSet::new();
    for (layer, heads) in LAYERS.iter().enumerate().take(LAYERS.len() - 1) {
        for head in heads.clone() {
            for _ in 0..rng.within(2..=3) {
                bodies.insert((head, Body::Pair(later(rng, layer), later(rng, layer))));
            }
            if head == 0 || rng.once_in(3) {
                bodies.insert((head, Body::Pair(later(rng, layer), head)));
            }
        }
    }
    let last = &LAYERS[LAYERS.len() - 1];
    bodies.extend((0..WORDS).map(|word| (rng.within(last.clone()), Body::Word(word))));
    while bodies.iter().filter(|(_, body)| matches!(body, Body::Word(_))).count() < WORDS as usize + SECOND_MEANINGS {
        bodies.insert((rng.within(last.clone()), Body::Word(rng.within(0..=WORDS - 1))));
    }
    let mut bodies: Vec<(u32, Body)> = bodies.into_iter().collect();
    bodies.sort_unstable_by_key(|&(head, body)| match body {
        Body::Pair(first, second) => (head, 0, first, second),
        Body::Word(word) => (head, 1, word, 0),
    });
    let rules = bodies.into_iter().map(|(head, body)| Rule { head, weight: rng.within(0..=WEIGHT), body });
    Grammar { symbols: SYMBOLS, words: WORDS, rules: rules.collect() }
}

/// A symbol of the next layer, or as often one that has words.
fn later(rng: &mut Rng, layer: usize) -> u32 {
    let layer = if rng.once_in(2) { layer + 1 } else { LAYERS.len() - 1 };
    rng.within(LAYERS[layer].clone())
}

/// A string of so many words that the grammar says, if there is one.
fn say(rng: &mut Rng, grammar: &Grammar, length: usize) -> Option<Vec<u32>> {
    let mut says = vec![vec![false; length + 1]; grammar.symbols as usize];
    for size in 1..=length {
        for rule in &grammar.rules {
            let found = match rule.body {
                Body::Word(_) => size == 1,
                Body::Pair(first, second) => {
                    (1..size).any(|split| says[first as usize][split] && says[second as usize][size - split])
                }
            };
            says[rule.head as usize][size] |= found;
        }
    }
    let mut said = Vec::new();
    says[0][length].then(|| expand(rng, grammar, &says, 0, length, &mut said))?;
    Some(said)
}

/// Appends a string of a symbol: any of its rules, and any split, by which it says so many words.
fn expand(rng: &mut Rng, grammar: &Grammar, says: &[Vec<bool>], head: u32, length: usize, said: &mut Vec<u32>) {
    let mut ways = Vec::new();
    for rule in grammar.rules.iter().filter(|rule| rule.head == head) {
        match rule.body {
            Body::Word(_) if length == 1 => ways.push((rule.body, 0)),
            Body::Word(_) => {}
            Body::Pair(first, second) => {
                let splits = (1..length).filter(|&at| says[first as usize][at] && says[second as usize][length - at]);
                ways.extend(splits.map(|split| (rule.body, split)));
            }
        }
    }
    match rng.pick(&ways) {
        (Body::Word(word), _) => said.push(word),
        (Body::Pair(first, second), split) => {
            expand(rng, grammar, says, first, split, said);
            expand(rng, grammar, says, second, length - split, said);
        }
    }
}

/// Each slot has what was said and some other words.
fn slots_around(rng: &mut Rng, grammar: &Grammar, said: &[u32]) -> Utterance {
    let slot = |&word: &u32| {
        let mut candidates = vec![Candidate { word, cost: rng.within(SAID) }];
        while candidates.len() < CANDIDATES {
            let word = rng.within(0..=grammar.words - 1);
            if candidates.iter().all(|candidate| candidate.word != word) {
                candidates.push(Candidate { word, cost: rng.within(CONFUSED) });
            }
        }
        candidates.sort_unstable_by_key(|candidate| candidate.word);
        candidates
    };
    Utterance { slots: said.iter().map(slot).collect() }
}

/// An edge over each step for what was said, and some other words over up to three steps.
fn graph_around(rng: &mut Rng, grammar: &Grammar, said: &[u32]) -> Graph {
    let steps = said.len() as u32;
    let along = (0..steps).zip(said).map(|(from, &word)| Edge { from, to: from + 1, word, cost: rng.within(SAID) });
    let mut edges: Vec<Edge> = along.collect();
    let mut seen: HashSet<(u32, u32, u32)> = edges.iter().map(|edge| (edge.from, edge.to, edge.word)).collect();
    while edges.len() < CANDIDATES * said.len() {
        let from = rng.within(0..=steps - 1);
        let to = (from + rng.within(1..=LONGEST)).min(steps);
        let word = rng.within(0..=grammar.words - 1);
        if seen.insert((from, to, word)) {
            edges.push(Edge { from, to, word, cost: rng.within(CONFUSED) });
        }
    }
    Graph { places: steps + 1, edges }
}

#[cfg(test)]
mod tests {
    use super::*;
    use crate::free;

    #[test]
    fn what_was_said_has_a_reading() {
        let inputs = [6, 12, 24].into_iter().flat_map(|length| of_slots(length).into_iter().chain(of_graphs(length)));
        for Input { name, grammar, heard } in inputs.chain(doors()) {
            let length = heard::reading_length(&grammar, &heard);
            let (mut work, mut out, mut from_free) = (vec![0; 9_830_400], vec![0; 16 * length], vec![0; 16 * length]);
            let blocks = (grammar::pack(&grammar), heard::pack(&grammar, &heard));
            let found = spireyerba_tests::listing::listing(&blocks.0, &blocks.1, 16, &mut work, &mut out);
            assert!(found.expect(name) > 0, "{name}: no reading");
            assert_eq!(free::listing(&blocks.0, &blocks.1, 16, &mut from_free), found, "{name}");
            assert!(out == from_free, "{name}: the lists differ");
        }
    }
}
