//! Ties go to what was heard better: where weights are equal, the lower sum of costs comes first, at every level (document 02,
//! N6). Each test runs on the library and on the second implementation.

use spireyerba::services;
use spireyerba_tests::both::{self, Listing};
use spireyerba_tests::{grammar, listing, reading, tests_of_both, utterance};

tests_of_both! {
    services::listing, listing::listing;
    between_two_leaves
    between_two_nodes
    between_the_parts
}

/// The weights and walks that a listing finds, in its order.
fn list(listing: Listing, grammar: &[u8], utterance: &[u8], wanted: u32) -> Vec<(u32, Vec<u32>)> {
    let under = grammar::from_block(grammar).expect("an accepted grammar");
    let slots = utterance::from_block(&under, utterance).expect("an accepted utterance").slots.len();
    let reading = |block: &Vec<u8>| reading::from_block(&under, slots, block).expect("a reading").0;
    let readings = both::list(listing, grammar, utterance, wanted);
    readings.iter().map(reading).map(|reading| (reading.weight, reading.walk)).collect()
}

/// These walks in this order, all of one weight, and the first ones of them where fewer are wanted.
fn expect(listing: Listing, grammar: &[u8], utterance: &[u8], weight: u32, walks: &[&[u32]]) {
    let expected: Vec<(u32, Vec<u32>)> = walks.iter().map(|walk| (weight, walk.to_vec())).collect();
    for wanted in [1, 2, 3, 8, 256] {
        let first = &expected[..expected.len().min(wanted as usize)];
        assert_eq!(list(listing, grammar, utterance, wanted), first, "{wanted} wanted");
    }
}

/// Rule 0 has weight 3 and its word cost 2, rule 1 weight 5 and cost 0.
fn between_two_leaves(listing: Listing) {
    let grammar = [0x10, 0x40, 0x80, 0x50, 0x00, 0x1a, 0x00, 0x05, 0x80];
    let utterance = [0x20, 0x50, 0x00, 0x0a, 0x00, 0x00];
    expect(listing, &grammar, &utterance, 5, &[&[1], &[0]]);
}

fn between_two_nodes(listing: Listing) {
    let grammar = [0x10, 0x80, 0x80, 0x60, 0x00, 0x07, 0x80, 0x01, 0xb0, 0x00, 0x58];
    let utterance = [0x20, 0x90, 0x00, 0x0a, 0x00, 0x00, 0x80, 0x00, 0x50, 0x00, 0x00];
    let walks = [[0, 2, 2], [0, 2, 1], [0, 1, 2], [0, 1, 1]];
    let weight = list(listing, &grammar, &utterance, 1)[0].0;
    expect(listing, &grammar, &utterance, weight, &walks.each_ref().map(|walk| walk.as_slice()));
}

/// All four weigh the same, and the two in the middle cost the same: their left parts decide, by costs before rules.
fn between_the_parts(listing: Listing) {
    let grammar = [0x10, 0x40, 0x80, 0x70, 0x00, 0x02, 0x00, 0x01, 0x80, 0x00, 0x00];
    let utterance = [0x20, 0x90, 0x00, 0x0a, 0x00, 0x02, 0x80, 0x00, 0x50, 0x00, 0x10];
    let walks = [[2, 1, 1], [2, 1, 0], [2, 0, 1], [2, 0, 0]];
    let weight = list(listing, &grammar, &utterance, 1)[0].0;
    expect(listing, &grammar, &utterance, weight, &walks.each_ref().map(|walk| walk.as_slice()));
}
