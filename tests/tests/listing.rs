//! The library's listing beside the second implementation.

use spireyerba::Refusal::*;
use spireyerba::{Heard, Utterance};
use spireyerba_tests::compare::listing::{compare_accepted, compare_damaged, compare_short_and_out_of_range, Lists};
use spireyerba_tests::compare::{over_seeds, Tally};
use spireyerba_tests::refusal::{GRAMMAR_BLOCK, UTTERANCE_BLOCK};
use spireyerba_tests::seeded::damage::{some_grammar_blocks, some_utterance_blocks, with_one_damaged};
use spireyerba_tests::seeded::parsable::{case, wanted, Shape};
use spireyerba_tests::seeded::parsable::{AMBIGUOUS, GREATEST, LONG, MANY_SYMBOLS, SPARSE, TINY};
use spireyerba_tests::seeded::rng::Rng;
use spireyerba_tests::{grammar, utterance};
use std::ops::Range;

/// Utterances with a word that was not heard, and with a slot of only such words.
#[derive(Debug, Default)]
struct Utterances {
    not_heard: usize,
    silent: usize,
}

impl Utterances {
    fn record(&mut self, utterance: &Utterance) {
        let struck_out = utterance::struck_out(utterance);
        self.not_heard += usize::from(struck_out != *utterance);
        self.silent += usize::from(struck_out.slots.contains(&Vec::new()));
    }
}

/// A listing of slots for each seed; so many at least are different.
fn accepted(
    seeds: Range<u64>,
    different: usize,
    shapes: &[&Shape],
    wanted: fn(&mut Rng) -> u32,
) -> (Lists, Utterances) {
    let mut utterances = Utterances::default();
    let lists = compare_accepted(seeds, different, |rng| {
        let shape = rng.pick(shapes);
        let (grammar, utterance) = case(rng, shape);
        utterances.record(&utterance);
        (grammar, Heard::Slots(utterance), wanted(rng))
    });
    (lists, utterances)
}

#[test]
fn small_lists() {
    let (lists, utterances) = accepted(0..8_000, 5_000, &[&TINY, &TINY, &AMBIGUOUS, &AMBIGUOUS, &SPARSE], wanted);
    assert!(lists.empty > 1_000 && lists.short > 1_000 && lists.full > 1_000, "{lists:?}");
    assert!(utterances.not_heard > 2_000 && utterances.silent > 300, "{utterances:?}");
}

#[test]
fn long_utterances_and_many_symbols() {
    let (lists, _) = accepted(10_000..10_500, 500, &[&LONG, &MANY_SYMBOLS], wanted);
    assert!(lists.full > 200, "{lists:?}");
}

#[test]
fn the_greatest_sizes() {
    let (lists, _) = accepted(20_000..20_008, 8, &[&GREATEST], |rng| rng.pick(&[1, 16, 255, 256, 256]));
    assert!(lists.full > 4, "{lists:?}");
}

#[test]
fn short_slices_and_numbers_out_of_range() {
    compare_short_and_out_of_range(30_000..30_400, |rng| {
        let (grammar, utterance) = case(rng, &AMBIGUOUS);
        (grammar, Heard::Slots(utterance))
    });
}

#[test]
fn damaged_blocks() {
    let mut tally = Tally::default();
    over_seeds(40_000..40_200, |rng| {
        let (grammar, utterance) = case(rng, &SPARSE);
        let blocks = [grammar::pack(&grammar), utterance::pack(&grammar, &utterance)];
        let grammars = some_grammar_blocks(rng, &grammar, 10);
        let utterances = some_utterance_blocks(rng, &grammar, &utterance, 10);
        for blocks in &with_one_damaged(&blocks, grammars, utterances) {
            compare_damaged(rng, &mut tally, blocks);
        }
    });
    // a random kind can be that of a graph, whose edges are then random too
    tally.demand(8_000, &[GRAMMAR_BLOCK.as_slice(), &UTTERANCE_BLOCK, &[ListingWanted, EdgePlaces]].concat());
}
