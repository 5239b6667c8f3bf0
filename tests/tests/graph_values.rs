//! The crate's `Graph` packs itself, without the library: its refusals beside those of the second implementation.

use spireyerba::Refusal::*;
use spireyerba::{Edge, Graph, Refusal};
use spireyerba_tests::compare::over_seeds;
use spireyerba_tests::seeded::damage::repeated_edge;
use spireyerba_tests::seeded::grammars::{grammar, Size};
use spireyerba_tests::seeded::graphs::graph;
use spireyerba_tests::{grammar, graph};

/// A graph with one number changed that a block has room for.
#[test]
fn what_is_packed_is_what_the_block_of_the_same_numbers_would_be() {
    let (mut packed, mut refused) = (0, 0);
    over_seeds(0..4_000, |rng| {
        let under = grammar(rng, Size::Small);
        let mut value = graph(rng, Size::Small, under.words);
        if rng.once_in(4) {
            value = repeated_edge(rng, &value);
        }
        let number = rng.below(value.edges.len());
        let edge = &mut value.edges[number];
        match rng.below(8) {
            0 => value.places = rng.within(0..=31),
            1 => edge.from = rng.within(0..=31),
            2 => edge.to = rng.within(0..=31),
            3 => edge.word = rng.within(0..=(1 << grammar::word_width(&under)) - 1),
            4 => edge.cost = rng.within(0..=65_535),
            5 => value.edges.clear(),
            _ => (),
        }
        let block = graph::pack(&under, &value);
        let expected = graph::from_block(&under, &block).map(|_| block);
        let answer = value.to_block(&grammar::pack(&under));
        assert_eq!(answer, expected, "{under:?} {value:?}");
        *if answer.is_ok() { &mut packed } else { &mut refused } += 1;
    });
    assert!(packed > 1_000 && refused > 1_000, "{packed} packed, {refused} refused");
}

/// Numbers for which a block has no room.
#[test]
fn numbers_past_every_field() {
    // 200 words, so that every word's number has eight bits; and one word
    let words = grammar::pack(&grammar::from_sheet(&[1, 200, 1, 1, 0, 0, 0, 0]).unwrap());
    let one_word = grammar::pack(&grammar::from_sheet(&[1, 1, 1, 1, 0, 0, 0, 0]).unwrap());
    let refusal = |places, (from, to, word, cost)| {
        let graph = Graph { places, edges: vec![Edge { from, to, word, cost }] };
        (graph.to_block(&words).err(), graph.to_block(&one_word).err())
    };
    let both = |refusal: Refusal| (Some(refusal), Some(refusal));
    assert_eq!(refusal(2, (0, 1, 0, 65_535)), (None, None));
    for places in [32 + 2, 1 << 16, u32::MAX] {
        assert_eq!(refusal(places, (0, 1, 0, 0)), both(UtteranceRange));
    }
    for place in [32, 33, 1 << 16, u32::MAX - 1] {
        assert_eq!(refusal(2, (place, place + 1, 0, 0)), both(EdgePlaces));
        assert_eq!(refusal(2, (0, place + 1, 0, 0)), both(EdgePlaces));
        assert_eq!(refusal(2, (place, 1, 0, 0)), both(EdgePlaces));
    }
    for word in [200, 256, 1 << 16, u32::MAX] {
        assert_eq!(refusal(2, (0, 1, word, 0)), both(UtteranceWord));
    }
    for cost in [65_536, 1 << 20, u32::MAX] {
        assert_eq!(refusal(2, (0, 1, 0, cost)), both(SheetValue));
        assert_eq!(refusal(2, (0, 1, 200, cost)), both(UtteranceWord));
    }
    let edges = |count: u32| Graph {
        places: 25,
        edges: (0..count).map(|number| Edge { from: 0, to: 1, word: number, cost: 0 }).collect(),
    };
    assert_eq!(edges(96).to_block(&words).map(|block| block.len()), Ok(410));
    for count in [97, 128, 129, 200, 1_000] {
        assert_eq!(edges(count).to_block(&words), Err(UtteranceRange));
    }
    // a cost that passes is met before the edge is compared with the earlier ones
    let twice = Graph { places: 2, edges: vec![Edge { from: 0, to: 1, word: 0, cost: 0 }; 2] };
    assert_eq!(twice.to_block(&words), Err(EdgeRepeat));
    let mut dear = twice.clone();
    dear.edges[1].cost = 65_536;
    assert_eq!(dear.to_block(&words), Err(SheetValue));
    assert_eq!(twice.to_block(&[]), Err(GrammarEnd));
}
