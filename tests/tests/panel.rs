//! The panel's listing (document 02, N8): its examples, beside the second implementation, and beside the library's listing.

use spireyerba::limits::{PANEL_MAX_READINGS, PANEL_MAX_SLOTS, PANEL_OUTPUT_MAX, PANEL_WORK_MAX};
use spireyerba::Refusal::{self, *};
use spireyerba::{services, Edge, Grammar, Graph, Heard};
use spireyerba_tests::compare::listing::{compare_panel, compare_services, Call};
use spireyerba_tests::compare::{over_seeds, Tally};
use spireyerba_tests::documents::{block_of_slots, g, G};
use spireyerba_tests::listing::panel_listing;
use spireyerba_tests::refusal::{GRAMMAR_BLOCK, GRAPH_BLOCK, UTTERANCE_BLOCK};
use spireyerba_tests::seeded::damage::{graph_blocks, some_grammar_blocks, some_utterance_blocks, with_one_damaged};
use spireyerba_tests::seeded::parsable::{case, graph_case, heard_case, Shape};
use spireyerba_tests::seeded::parsable::{AMBIGUOUS, GREATEST, LONG, MANY_SYMBOLS, SPARSE, TINY};
use spireyerba_tests::seeded::rng::Rng;
use spireyerba_tests::{grammar, graph, heard, utterance};

/// So many places, with word 0 at cost 0 over each step.
fn places(count: u32) -> Vec<u8> {
    let edges = (1..count).map(|to| Edge { from: to - 1, to, word: 0, cost: 0 });
    graph::pack(&g(), &Graph { places: count, edges: edges.collect() })
}

/// What the panel and the second implementation answer of G, with slices of these lengths.
fn answer(heard: &[u8], wanted: u32, work_len: usize, out_len: usize) -> Result<usize, Refusal> {
    let answers = [services::panel_listing, panel_listing].map(|service| {
        let (mut work, mut out) = (vec![7; work_len], vec![7; out_len]);
        service(&G, heard, wanted, &mut work, &mut out)
    });
    assert_eq!(answers[0], answers[1]);
    answers[0]
}

#[test]
fn twelve_slots_and_sixteen_readings() {
    let heard = block_of_slots(12);
    assert_eq!(answer(&heard, 16, 4_992, 128), Ok(16));
    assert_eq!(answer(&heard, 16, 4_991, 128), Err(ListingWork));
    assert_eq!(answer(&heard, 16, 4_992, 127), Err(ListingOutput));
    for (wanted, refusal) in [(17, PanelWanted), (256, PanelWanted), (0, ListingWanted), (257, ListingWanted)] {
        assert_eq!(answer(&heard, wanted, 100_000, 10_000), Err(refusal), "N {wanted}");
        assert_eq!(answer(&heard, wanted, 0, 0), Err(refusal), "N {wanted}");
    }
}

#[test]
fn more_slots_than_twelve() {
    for wanted in [0, 1, 16, 17, 300] {
        assert_eq!(answer(&block_of_slots(13), wanted, 100_000, 10_000), Err(PanelSlots), "N {wanted}");
        assert_eq!(answer(&block_of_slots(24), wanted, 0, 0), Err(PanelSlots), "N {wanted}");
        assert_eq!(answer(&block_of_slots(25), wanted, 0, 0), Err(UtteranceRange), "N {wanted}");
    }
}

#[test]
fn thirteen_places_pass() {
    assert_eq!(answer(&places(13), 16, 4_992, 16 * 18), Ok(16));
    assert_eq!(answer(&places(13), 17, 4_992, 16 * 18), Err(PanelWanted));
    for wanted in [0, 16, 300] {
        assert_eq!(answer(&places(14), wanted, 100_000, 10_000), Err(PanelSlots), "N {wanted}");
    }
}

/// A number of readings within the panel's limits, beyond them, or that cannot be wanted at all.
fn wanted(rng: &mut Rng) -> u32 {
    match rng.below(8) {
        0 => rng.pick(&[0, 257, 300, u32::MAX]),
        1 => rng.within(17..=256),
        2 => PANEL_MAX_READINGS,
        _ => rng.within(1..=16),
    }
}

/// The lengths of work table and output that a listing needs, or one less of either.
fn lengths(rng: &mut Rng, grammar: &Grammar, heard: &Heard, wanted: u32) -> (usize, usize) {
    let (work, out) = heard::listing_lengths(grammar, heard, wanted.min(PANEL_MAX_READINGS));
    match rng.below(6) {
        0 => (work.saturating_sub(1), out),
        1 => (work, out.saturating_sub(1)),
        2 => (work + 50, out + 50),
        _ => (work, out),
    }
}

#[test]
fn beside_the_second_implementation() {
    let mut tally = Tally::default();
    over_seeds(0..6_000, |rng| {
        let (grammar, heard) = heard_case(rng, &[&TINY, &AMBIGUOUS, &AMBIGUOUS, &SPARSE, &LONG, &MANY_SYMBOLS]);
        let wanted = wanted(rng);
        let (work_len, out_len) = lengths(rng, &grammar, &heard, wanted);
        let call = Call {
            grammar: &grammar::pack(&grammar),
            utterance: &heard::pack(&grammar, &heard),
            wanted,
            work_len,
            out_len,
        };
        compare_panel(rng, &mut tally, &call);
    });
    assert!(tally.accepted() > 2_000);
    tally.demand(5_000, &[ListingWanted, ListingWork, ListingOutput, PanelSlots, PanelWanted]);
}

#[test]
fn damaged_blocks() {
    let mut tally = Tally::default();
    over_seeds(10_000..10_200, |rng| {
        let (grammar, utterance) = case(rng, &SPARSE);
        let (_, graph) = graph_case(rng, &SPARSE);
        let blocks = [grammar::pack(&grammar), utterance::pack(&grammar, &utterance)];
        let grammars = some_grammar_blocks(rng, &grammar, 10);
        let mut damaged = some_utterance_blocks(rng, &grammar, &utterance, 10);
        damaged.extend(graph_blocks(rng, &grammar, &graph, 10));
        for [grammar, utterance] in &with_one_damaged(&blocks, grammars, damaged) {
            let call = Call { grammar, utterance, wanted: wanted(rng), work_len: PANEL_WORK_MAX / 8, out_len: 300 };
            compare_panel(rng, &mut tally, &call);
        }
    });
    let blocks = [GRAMMAR_BLOCK.as_slice(), &UTTERANCE_BLOCK, &GRAPH_BLOCK].concat();
    let refusals = [&blocks[..], &[ListingWanted, PanelWanted]].concat();
    tally.demand_besides(&[ListingWork, ListingOutput, PanelSlots], 5_000, &refusals);
}

/// Within the panel's limits both exported functions answer the same and leave the same in both slices.
#[test]
fn beside_the_library() {
    let mut tally = Tally::default();
    let short = Shape { slots: 12..=12, ..GREATEST };
    over_seeds(20_000..23_000, |rng| {
        let (grammar, heard) = heard_case(rng, &[&TINY, &AMBIGUOUS, &AMBIGUOUS, &SPARSE, &MANY_SYMBOLS]);
        let wanted = rng.within(0..=PANEL_MAX_READINGS);
        let (work_len, out_len) = lengths(rng, &grammar, &heard, wanted);
        let call = Call {
            grammar: &grammar::pack(&grammar),
            utterance: &heard::pack(&grammar, &heard),
            wanted,
            work_len,
            out_len,
        };
        compare_services(rng, &mut tally, &call, [services::panel_listing, services::listing]);
    });
    over_seeds(30_000..30_020, |rng| {
        let (grammar, heard) = heard_case(rng, &[&short]);
        assert_eq!(heard.longest(), PANEL_MAX_SLOTS as usize);
        let call = Call {
            grammar: &grammar::pack(&grammar),
            utterance: &heard::pack(&grammar, &heard),
            wanted: PANEL_MAX_READINGS,
            work_len: PANEL_WORK_MAX,
            out_len: PANEL_OUTPUT_MAX,
        };
        let found = compare_services(rng, &mut tally, &call, [services::panel_listing, services::listing]);
        assert!(found.is_some(), "the panel's greatest sizes suffice");
    });
    tally.demand(2_500, &[ListingWanted, ListingWork, ListingOutput]);
}
