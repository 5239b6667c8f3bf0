//! The grammars, utterances and word graphs that the listing is measured on, and the grammars that the specimen is.

use spireyerba::limits::{MAX_EDGES, MAX_PLACES};
use spireyerba::{Body, Candidate, Edge, Grammar, Graph, Heard, Rule, Utterance};
use spireyerba_tests::grammar::words_of_rules;
use spireyerba_tests::seeded::grammars::{with_weights, Weights};
use spireyerba_tests::seeded::rng::Rng;
use std::collections::HashSet;

#[derive(Clone)]
pub struct Input {
    pub name: &'static str,
    pub grammar: Grammar,
    pub heard: Heard,
}

/// The greatest weight and cost.
pub const WEIGHT: u32 = 1_000;
/// The words of each slot, and as many as let 24 slots be redrawn as a graph.
pub const CANDIDATES: usize = 7;
const CANDIDATES_REDRAWN: usize = 4;

/// 32 symbols and 256 rules.
pub fn greatest(slots: usize) -> Input {
    let grammar = greatest_grammar();
    let utterance = utterance(&mut Rng::new(2), &grammar, slots, CANDIDATES, WEIGHT);
    Input { name: "32 symbols, 256 rules", grammar, heard: Heard::Slots(utterance) }
}

fn greatest_grammar() -> Grammar {
    // a seed with which six slots have 256 readings too
    random_grammar(&mut Rng::new(8), 32, 150, 106, WEIGHT)
}

/// Word graphs of 25 places and 96 edges.
pub fn graphs() -> Vec<Input> {
    let with = |name, grammar: Grammar, longest| {
        let heard = Heard::Graph(graph(&mut Rng::new(6), &grammar, longest));
        Input { name, grammar, heard }
    };
    let few = random_grammar(&mut Rng::new(4), 4, 32, 32, WEIGHT);
    vec![
        with("32 symbols, 256 rules, short edges", greatest_grammar(), 3),
        with("32 symbols, 256 rules, long edges", greatest_grammar(), 8),
        with("4 symbols, 64 rules, short edges", few.clone(), 3),
        with("4 symbols, 64 rules, long edges", few, 8),
    ]
}

/// 24 slots of four words each, and the same redrawn as a graph.
pub fn redrawn() -> Vec<[Input; 2]> {
    let with = |name, grammar: Grammar| {
        let utterance = utterance(&mut Rng::new(5), &grammar, 24, CANDIDATES_REDRAWN, WEIGHT);
        let graph = Heard::Graph(Graph::from(&utterance));
        [Heard::Slots(utterance), graph].map(|heard| Input { name, grammar: grammar.clone(), heard })
    };
    vec![
        with("32 symbols, 256 rules", greatest_grammar()),
        with("4 symbols, 64 rules", random_grammar(&mut Rng::new(4), 4, 32, 32, WEIGHT)),
        with("one symbol", random_grammar(&mut Rng::new(4), 1, 1, 20, WEIGHT)),
        with("chain 0 to 1 0", chain(1, 0)),
    ]
}

/// The other shapes, each over 24 slots.
pub fn shapes() -> Vec<Input> {
    let with = |name, grammar: Grammar, weight| {
        let utterance = utterance(&mut Rng::new(3), &grammar, 24, CANDIDATES, weight);
        Input { name, grammar, heard: Heard::Slots(utterance) }
    };
    let rng = &mut Rng::new(4);
    vec![
        with("4 symbols, 64 rules", random_grammar(rng, 4, 32, 32, WEIGHT), WEIGHT),
        with("4 symbols, 64 rules, all weights 0", random_grammar(rng, 4, 32, 32, 0), 0),
        with("200 pair rules on head 0", one_head(rng), WEIGHT),
        with("one symbol", random_grammar(rng, 1, 1, 20, WEIGHT), WEIGHT),
        with("chain 0 to 1 0", chain(1, 0), WEIGHT),
        with("chain 0 to 0 1", chain(0, 1), WEIGHT),
    ]
}

/// Grammars of 32 symbols and 256 rules for the specimen, by what their words are like.
pub fn greatest_by_words() -> [(&'static str, Grammar); 3] {
    let rng = &mut Rng::new(5);
    [
        ("random words", greatest(24).grammar),
        ("words falling", falling(rng)),
        ("all strings tie", with_weights(rng, 32, 1, 224, 32, Weights::Zero)),
    ]
}

/// Each symbol has a lesser word than the one before it, and joins seven pairs of which each begins with a later symbol than
/// the one before it: what is found later is often less.
fn falling(rng: &mut Rng) -> Grammar {
    let mut rules = Vec::new();
    for head in 0..32 {
        let pairs = (1..8).map(|step| Body::Pair(4 * step + rng.within(0..=3), rng.within(0..=31)));
        let bodies = pairs.chain([Body::Word(31 - head)]);
        rules.extend(bodies.map(|body| Rule { head, weight: 0, body }));
    }
    Grammar { symbols: 32, words: 32, rules }
}

/// As many words as word rules.
fn random_grammar(rng: &mut Rng, symbols: u32, pairs: u32, word_rules: u32, weight: u32) -> Grammar {
    with_weights(rng, symbols, word_rules, pairs, word_rules, Weights::UpTo(weight))
}

/// Head 0 joins 200 of the pairs of 16 symbols; each symbol has words.
fn one_head(rng: &mut Rng) -> Grammar {
    let mut bodies: Vec<Body> = (0..256).map(|pair| Body::Pair(pair / 16, pair % 16)).collect();
    rng.shuffle(&mut bodies);
    bodies.truncate(200);
    let mut heads = vec![0; 200];
    bodies.extend((0..48).map(Body::Word));
    heads.extend((0..48).map(|word| word % 16));
    let rule = |(head, body)| Rule { head, weight: rng.within(0..=WEIGHT), body };
    Grammar { symbols: 16, words: 48, rules: heads.into_iter().zip(bodies).map(rule).collect() }
}

/// Head 0 joins one word with the rest of the utterance, which stands on one side.
fn chain(first: u32, second: u32) -> Grammar {
    let mut rules = vec![Rule { head: 0, weight: 1, body: Body::Pair(first, second) }];
    for word in 0..20 {
        rules.push(Rule { head: word % 2, weight: 7 * word, body: Body::Word(word / 2) });
    }
    Grammar { symbols: 2, words: 10, rules }
}

/// The words that some rule has.
fn known_words(grammar: &Grammar) -> Vec<u32> {
    let mut known: Vec<u32> = words_of_rules(grammar).collect();
    known.sort_unstable();
    known.dedup();
    known
}

/// As many edges as there can be between as many places, each over up to `longest` steps, with a word that some rule has. One
/// edge over each step comes first, so that there is a path.
fn graph(rng: &mut Rng, grammar: &Grammar, longest: u32) -> Graph {
    let known = known_words(grammar);
    let last = MAX_PLACES - 1;
    let (mut edges, mut seen) = (Vec::new(), HashSet::new());
    while edges.len() < MAX_EDGES as usize {
        let laid = edges.len() as u32;
        let (from, steps) = if laid < last { (laid, 1) } else { (rng.within(0..=last - 1), rng.within(1..=longest)) };
        let (to, word) = ((from + steps).min(last), rng.pick(&known));
        if seen.insert((from, to, word)) {
            edges.push(Edge { from, to, word, cost: rng.within(0..=WEIGHT) });
        }
    }
    Graph { places: MAX_PLACES, edges }
}

/// Each slot offers so many words that some rule has.
pub fn utterance(rng: &mut Rng, grammar: &Grammar, slots: usize, candidates: usize, cost: u32) -> Utterance {
    let mut known = known_words(grammar);
    let slot = |_| {
        rng.shuffle(&mut known);
        let mut words = known[..candidates].to_vec();
        words.sort_unstable();
        words.into_iter().map(|word| Candidate { word, cost: rng.within(0..=cost) }).collect()
    };
    Utterance { slots: (0..slots).map(slot).collect() }
}

#[cfg(test)]
mod tests {
    use super::*;
    use crate::free;
    use spireyerba_tests::{grammar, heard, specimen};

    #[test]
    fn each_shape_is_accepted_and_has_256_readings() {
        let of_slots = [6, 12, 24].map(greatest).into_iter().chain(shapes());
        for Input { name, grammar, heard } in of_slots.chain(graphs()).chain(redrawn().into_iter().flatten()) {
            let grammar_block = grammar.to_block().expect(name);
            let block = heard.to_block(&grammar_block).expect(name);
            assert_eq!(heard::from_block(&grammar, &block).as_ref(), Ok(&heard), "{name}");
            let length = heard::reading_length(&grammar, &heard);
            let (mut work, mut out, mut from_free) = (vec![0; 9_830_400], vec![1; 256 * length], vec![2; 256 * length]);
            let blocks = (grammar::pack(&grammar), heard::pack(&grammar, &heard));
            let found = spireyerba_tests::listing::listing(&blocks.0, &blocks.1, 256, &mut work, &mut out);
            assert_eq!(found, Ok(256), "{name}");
            assert_eq!(free::listing(&blocks.0, &blocks.1, 256, &mut from_free), Ok(256), "{name}");
            assert!(out == from_free, "{name}: the lists differ");
        }
    }

    #[test]
    fn each_grammar_by_words_is_accepted_and_has_a_string_of_24_words() {
        for (name, grammar) in greatest_by_words() {
            grammar.to_block().expect(name);
            assert_eq!((grammar.symbols, grammar.rules.len()), (32, 256), "{name}");
            assert!(specimen::least(&grammar, 24).is_some(), "{name}");
        }
    }
}
