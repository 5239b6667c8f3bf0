//! Seeded grammars with utterances and word graphs that they are likely to derive, in the shapes that matter to a chart.

use super::grammars::with_rules;
use super::graphs::with_edges;
use super::rng::Rng;
use super::utterances::{slot, Costs};
use crate::grammar::words_of_rules;
use spireyerba::limits::{MAX_EDGES, MAX_READINGS};
use spireyerba::{Grammar, Graph, Heard, Utterance};
use std::ops::RangeInclusive;

/// From where to where the numbers of a case are drawn.
#[derive(Clone, Debug)]
pub struct Shape {
    pub symbols: RangeInclusive<u32>,
    pub words: RangeInclusive<u32>,
    pub pair_rules: RangeInclusive<u32>,
    pub word_rules: RangeInclusive<u32>,
    pub slots: RangeInclusive<u32>,
    pub candidates: RangeInclusive<u32>,
}

/// Few symbols and few slots, so that all derivations can be enumerated.
pub const TINY: Shape =
    Shape { symbols: 1..=3, words: 1..=3, pair_rules: 1..=4, word_rules: 1..=5, slots: 1..=5, candidates: 1..=3 };
/// Few symbols with many rules: each span has many trees.
pub const AMBIGUOUS: Shape =
    Shape { symbols: 1..=4, words: 1..=5, pair_rules: 1..=12, word_rules: 2..=10, slots: 1..=9, candidates: 1..=4 };
/// Few pair rules: often there is no derivation, or the list ends early.
pub const SPARSE: Shape =
    Shape { symbols: 2..=6, words: 2..=8, pair_rules: 1..=5, word_rules: 1..=8, slots: 1..=8, candidates: 1..=7 };
/// Slots with many words that rules have: other costs bring other readings.
pub const WORDY: Shape =
    Shape { symbols: 1..=3, words: 3..=6, pair_rules: 1..=6, word_rules: 8..=14, slots: 1..=6, candidates: 3..=6 };
pub const LONG: Shape =
    Shape { symbols: 1..=4, words: 1..=8, pair_rules: 1..=10, word_rules: 2..=12, slots: 10..=24, candidates: 1..=7 };
pub const MANY_SYMBOLS: Shape = Shape {
    symbols: 8..=32,
    words: 10..=200,
    pair_rules: 30..=128,
    word_rules: 40..=128,
    slots: 2..=8,
    candidates: 1..=7,
};
pub const GREATEST: Shape = Shape {
    symbols: 32..=32,
    words: 200..=200,
    pair_rules: 150..=150,
    word_rules: 106..=106,
    slots: 24..=24,
    candidates: 7..=7,
};

/// A shape, of those that take long only few.
pub fn any_shape(rng: &mut Rng) -> &'static Shape {
    match rng.below(100) {
        0 => &GREATEST,
        1..=10 => &LONG,
        11..=25 => &MANY_SYMBOLS,
        26..=50 => &SPARSE,
        51..=75 => &TINY,
        _ => &AMBIGUOUS,
    }
}

/// The costs of what was heard brought below a bound.
pub fn cheaper(utterance: &mut Utterance, bound: u32) {
    let candidates = utterance.slots.iter_mut().flatten().filter(|candidate| candidate.is_offered());
    candidates.for_each(|candidate| candidate.cost %= bound);
}

/// The weights of the rules brought below a bound, so that costs matter beside them.
pub fn lighter(grammar: &mut Grammar, bound: u32) {
    grammar.rules.iter_mut().for_each(|rule| rule.weight %= bound);
}

/// A grammar, and an utterance whose slots have mostly words that some rule has.
pub fn case(rng: &mut Rng, shape: &Shape) -> (Grammar, Utterance) {
    let grammar = grammar_of(rng, shape);
    let utterance = utterance_of(rng, &grammar, shape);
    (grammar, utterance)
}

/// A grammar, and a word graph whose edges have mostly words that some rule has.
pub fn graph_case(rng: &mut Rng, shape: &Shape) -> (Grammar, Graph) {
    let grammar = grammar_of(rng, shape);
    let graph = graph_of(rng, &grammar, shape);
    (grammar, graph)
}

/// A grammar and what was heard, slots or a graph, of one of these shapes.
pub fn heard_case(rng: &mut Rng, shapes: &[&Shape]) -> (Grammar, Heard) {
    let shape = rng.pick(shapes);
    if rng.once_in(2) {
        let (grammar, graph) = graph_case(rng, shape);
        (grammar, Heard::Graph(graph))
    } else {
        let (grammar, utterance) = case(rng, shape);
        (grammar, Heard::Slots(utterance))
    }
}

/// A number of readings that can be wanted, mostly few.
pub fn wanted(rng: &mut Rng) -> u32 {
    match rng.below(6) {
        0 => 1,
        1 => MAX_READINGS,
        2 => rng.within(1..=MAX_READINGS),
        _ => rng.within(2..=20),
    }
}

fn grammar_of(rng: &mut Rng, shape: &Shape) -> Grammar {
    let mut draw = |range: &RangeInclusive<u32>| rng.within(range.clone());
    let (symbols, words) = (draw(&shape.symbols), draw(&shape.words));
    let (pairs, word_rules) = (draw(&shape.pair_rules), draw(&shape.word_rules));
    with_rules(rng, symbols, words, pairs, word_rules)
}

/// The words that some rule has, and one more.
fn known_words(rng: &mut Rng, grammar: &Grammar) -> Vec<u32> {
    let mut known: Vec<u32> = words_of_rules(grammar).collect();
    known.push(rng.within(0..=grammar.words - 1));
    known
}

/// Another word graph for a grammar, with as many edges for a place as a slot has candidates.
pub fn graph_of(rng: &mut Rng, grammar: &Grammar, shape: &Shape) -> Graph {
    let known = known_words(rng, grammar);
    let slots = rng.within(shape.slots.clone());
    let edges = slots * rng.within(shape.candidates.clone());
    with_edges(rng, slots + 1, edges.min(MAX_EDGES) as usize, &known)
}

/// Another utterance for a grammar.
pub fn utterance_of(rng: &mut Rng, grammar: &Grammar, shape: &Shape) -> Utterance {
    let known = known_words(rng, grammar);
    let costs = Costs::any(rng);
    let slots = rng.within(shape.slots.clone());
    let slots = (0..slots).map(|_| {
        let candidates = rng.within(shape.candidates.clone());
        slot(rng, &known, candidates as usize, costs)
    });
    Utterance { slots: slots.collect() }
}
