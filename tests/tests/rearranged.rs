//! Rules in another order: for any rearrangement of a grammar's rules the lists have equal length, and equal weight and cost sum at
//! every rank; one that is shorter than the number wanted holds the same derivations (document 02, N13). Each test runs on the
//! library and on the second implementation.

use spireyerba::{services, Body, Candidate, Edge, Grammar, Graph, Heard, Reading, Rule, Utterance};
use spireyerba_tests::both::{self, Listing};
use spireyerba_tests::compare::over_seeds;
use spireyerba_tests::seeded::parsable::{case, graph_case, AMBIGUOUS, LONG, MANY_SYMBOLS, SPARSE, TINY};
use spireyerba_tests::seeded::rng::Rng;
use spireyerba_tests::{grammar, graph_reading, heard, listing, reading, tests_of_both, utterance};
use std::ops::Range;

tests_of_both! {
    services::listing, listing::listing;
    heard_better_whichever_rule_is_first
    of_two_that_are_tied_each_order_lists_its_own_rule_0
    slots
    graphs
}

/// A reading that was listed.
#[derive(Clone, Debug, PartialEq, Eq, PartialOrd, Ord)]
struct Listed {
    weight: u32,
    /// The sum of the costs of its words.
    costs: u32,
    walk: Vec<u32>,
    /// Of a graph, the edge of each word.
    path: Vec<u32>,
}

impl Listed {
    /// The reading of slots with this walk.
    fn of_slots(grammar: &Grammar, utterance: &Utterance, block: &[u8]) -> Self {
        let found = reading::from_block(grammar, utterance.slots.len(), block).expect("a reading").0;
        let used = utterance.slots.iter().zip(reading::words(grammar, &found.walk));
        let cost = |(slot, word): (&Vec<Candidate>, u32)| {
            slot.iter().find(|candidate| candidate.word == word).expect("a word of its slot").cost
        };
        Self { weight: found.weight, costs: used.map(cost).sum(), walk: found.walk, path: Vec::new() }
    }

    fn of_graph(grammar: &Grammar, graph: &Graph, block: &[u8]) -> Self {
        let Reading { weight, walk, path } = graph_reading::of_listed(grammar, graph, block);
        let path = path.unwrap_or_default();
        let costs = path.iter().map(|&edge| graph.edges[edge as usize].cost).sum();
        Self { weight, costs, walk, path }
    }

    /// The same derivation under rules of which number `r` is now `to[r]`.
    fn renumbered(&self, to: &[u32]) -> Self {
        Self { walk: self.walk.iter().map(|&rule| to[rule as usize]).collect(), ..self.clone() }
    }
}

/// What a listing finds, in its order.
fn list(listing: Listing, grammar: &Grammar, heard: &Heard, wanted: u32) -> Vec<Listed> {
    let readings = both::list(listing, &grammar::pack(grammar), &heard::pack(grammar, heard), wanted);
    let listed = |block: &Vec<u8>| match heard {
        Heard::Slots(utterance) => Listed::of_slots(grammar, utterance, block),
        Heard::Graph(graph) => Listed::of_graph(grammar, graph, block),
    };
    readings.iter().map(listed).collect()
}

/// The grammar with its rules in another order, and the number there of each rule.
fn rearranged(rng: &mut Rng, grammar: &Grammar) -> (Grammar, Vec<u32>) {
    let mut order: Vec<usize> = (0..grammar.rules.len()).collect();
    rng.shuffle(&mut order);
    let mut to = vec![0; order.len()];
    for (number, &rule) in order.iter().enumerate() {
        to[rule] = number as u32;
    }
    let rules = order.iter().map(|&rule| grammar.rules[rule]).collect();
    (Grammar { rules, ..grammar.clone() }, to)
}

/// Lists that ended early, that were as long as was wanted, and that were not the same list renumbered.
#[derive(Debug, Default)]
struct Lists {
    short: usize,
    full: usize,
    ties_turned: usize,
}

/// A listing of rules in two orders for each seed.
fn rearrangements(listing: Listing, seeds: Range<u64>, case: fn(&mut Rng) -> (Grammar, Heard)) -> Lists {
    let mut lists = Lists::default();
    over_seeds(seeds, |rng| {
        let (grammar, heard) = case(rng);
        let (other, to) = rearranged(rng, &grammar);
        let wanted = rng.pick(&[1, 2, 5, 20, 256]);
        let (mut here, mut there) = (list(listing, &grammar, &heard, wanted), list(listing, &other, &heard, wanted));
        let prices = |list: &[Listed]| list.iter().map(|found| (found.weight, found.costs)).collect::<Vec<_>>();
        assert_eq!(prices(&here), prices(&there), "{wanted} of {grammar:?} {heard:?}\nrearranged {to:?}");
        here.iter_mut().for_each(|found| *found = found.renumbered(&to));
        lists.ties_turned += usize::from(here != there);
        if here.len() < wanted as usize {
            lists.short += usize::from(!here.is_empty());
            here.sort();
            there.sort();
            assert_eq!(here, there, "{wanted} of {grammar:?} {heard:?}\nrearranged {to:?}");
        } else {
            lists.full += 1;
        }
    });
    lists
}

fn slots(listing: Listing) {
    let lists = rearrangements(listing, 0..2_000, |rng| {
        let shape = rng.pick(&[&TINY, &AMBIGUOUS, &SPARSE, &LONG, &MANY_SYMBOLS]);
        let (grammar, utterance) = case(rng, shape);
        (grammar, Heard::Slots(utterance))
    });
    assert!(lists.short > 150 && lists.full > 150 && lists.ties_turned > 150, "{lists:?}");
}

fn graphs(listing: Listing) {
    let lists = rearrangements(listing, 10_000..12_000, |rng| {
        let shape = rng.pick(&[&TINY, &AMBIGUOUS, &SPARSE, &LONG, &MANY_SYMBOLS]);
        let (grammar, graph) = graph_case(rng, shape);
        (grammar, Heard::Graph(graph))
    });
    assert!(lists.short > 150 && lists.full > 150 && lists.ties_turned > 150, "{lists:?}");
}

/// One slot that offers words 0 and 1 at these costs; and the same redrawn as a graph.
fn one_slot(costs: [u32; 2]) -> [Heard; 2] {
    let slot = (0..).zip(costs).map(|(word, cost)| Candidate { word, cost }).collect();
    let edges = (0..).zip(costs).map(|(word, cost)| Edge { from: 0, to: 1, word, cost }).collect();
    [Heard::Slots(Utterance { slots: vec![slot] }), Heard::Graph(Graph { places: 2, edges })]
}

/// Rules 0 to word 0 and 0 to word 1 of these weights; and the same with the rules swapped.
fn both_ways(weights: [u32; 2]) -> [Grammar; 2] {
    let mut rules: Vec<Rule> =
        (0..).zip(weights).map(|(word, weight)| Rule { head: 0, weight, body: Body::Word(word) }).collect();
    let grammar = Grammar { symbols: 1, words: 2, rules: rules.clone() };
    rules.reverse();
    [grammar.clone(), Grammar { rules, ..grammar }]
}

/// The weights, cost sums and walks of what a listing finds.
fn found(listing: Listing, grammar: &Grammar, heard: &Heard, wanted: u32) -> Vec<(u32, u32, Vec<u32>)> {
    let list = list(listing, grammar, heard, wanted);
    list.into_iter().map(|found| (found.weight, found.costs, found.walk)).collect()
}

/// N6's first example: weights 3 and 5, costs 2 and 0.
fn heard_better_whichever_rule_is_first(listing: Listing) {
    let [grammar, swapped] = both_ways([3, 5]);
    let heard = one_slot([2, 0]);
    assert_eq!(grammar::pack(&grammar), [0x10, 0x40, 0x80, 0x50, 0x00, 0x1a, 0x00, 0x05, 0x80]);
    let Heard::Slots(slots) = &heard[0] else { unreachable!() };
    assert_eq!(utterance::pack(&grammar, slots), [0x20, 0x50, 0x00, 0x0a, 0x00, 0x00]);
    for heard in &heard {
        assert_eq!(found(listing, &grammar, heard, 8), [(5, 0, vec![1]), (5, 2, vec![0])]);
        assert_eq!(found(listing, &swapped, heard, 8), [(5, 0, vec![0]), (5, 2, vec![1])]);
    }
}

fn of_two_that_are_tied_each_order_lists_its_own_rule_0(listing: Listing) {
    let [grammar, swapped] = both_ways([5, 5]);
    for heard in &one_slot([1, 1]) {
        for grammar in [&grammar, &swapped] {
            assert_eq!(found(listing, grammar, heard, 1), [(6, 1, vec![0])]);
            assert_eq!(found(listing, grammar, heard, 2), [(6, 1, vec![0]), (6, 1, vec![1])]);
        }
    }
}
