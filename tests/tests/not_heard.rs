//! Words that were not heard: candidates of cost 65,535, which are not offered (document 02, N3). Each test runs on the
//! library and on the second implementation.

use spireyerba::limits::NOT_HEARD;
use spireyerba::{Body, Candidate, Grammar, Reading, Refusal, Rule, Utterance};
use spireyerba_tests::both::{self, Services, LIBRARY, SECOND};
use spireyerba_tests::compare::over_seeds;
use spireyerba_tests::seeded::parsable::{case, AMBIGUOUS, SPARSE, TINY};
use spireyerba_tests::seeded::utterances::heard_at;
use spireyerba_tests::{grammar, nbest, reading, tests_of_both, utterance};

tests_of_both! {
    &LIBRARY, &SECOND;
    the_examples
    a_reading_that_uses_such_a_word
    such_candidates_count_and_ascend
    a_slot_of_only_such_words
    rules_of_that_weight
    the_greatest_weight
    the_specimen
    struck_out_by_hand
}

/// 0 to word 0, weight 5; 0 to word 1, weight 3.
const GRAMMAR: [u8; 9] = [0x10, 0x40, 0x80, 0x50, 0x00, 0x2a, 0x00, 0x03, 0x80];
/// One slot of words 0 and 1, by their costs.
const COSTS_0_65535: [u8; 6] = [0x20, 0x50, 0x00, 0x03, 0xff, 0xfe];
const COSTS_65535_65535: [u8; 6] = [0x20, 0x53, 0xff, 0xff, 0xff, 0xfe];
const COSTS_0_65534: [u8; 6] = [0x20, 0x50, 0x00, 0x03, 0xff, 0xfc];
/// Rule 0 at weight 5; rule 1 at 3 + 65,534 and at 3 + 65,535.
const RULE_0_AT_5: [u8; 5] = [0x30, 0x40, 0x00, 0x01, 0x40];
const RULE_1_AT_65537: [u8; 5] = [0x30, 0x40, 0x40, 0x00, 0x60];
const RULE_1_AT_65538: [u8; 5] = [0x30, 0x40, 0x40, 0x00, 0xa0];

/// The readings of a listing.
fn list(services: &Services, grammar: &[u8], utterance: &[u8], wanted: u32) -> Vec<Vec<u8>> {
    both::list(services.listing, grammar, utterance, wanted)
}

fn the_examples(services: &Services) {
    let rows: [(_, _, &[[u8; 5]]); 3] = [
        ([0, 65_535], COSTS_0_65535, &[RULE_0_AT_5]),
        ([65_535, 65_535], COSTS_65535_65535, &[]),
        ([0, 65_534], COSTS_0_65534, &[RULE_0_AT_5, RULE_1_AT_65537]),
    ];
    for (costs, block, readings) in rows {
        let sheet = [1, 2, 0, costs[0], 1, costs[1]];
        let (mut as_block, mut as_sheet) = ([0; 6], [0; 6]);
        assert_eq!((services.utterance_to_block)(&GRAMMAR, &sheet, &mut as_block), Ok(6));
        assert_eq!((services.utterance_to_sheet)(&GRAMMAR, &block, &mut as_sheet), Ok(6));
        assert_eq!((as_block, as_sheet), (block, sheet));
        for wanted in [8, 256] {
            assert_eq!(list(services, &GRAMMAR, &block, wanted), readings, "costs {costs:?}");
        }
        assert_eq!(list(services, &GRAMMAR, &block, 1), readings[..readings.len().min(1)], "costs {costs:?}");
        for reading in readings {
            assert_eq!((services.check)(&GRAMMAR, &block, reading), Ok(()), "costs {costs:?}");
        }
    }
}

/// 34, whatever its weight (35) and its end (36); a missing field (31) is met before it.
fn a_reading_that_uses_such_a_word(services: &Services) {
    let check = |utterance: &[u8], reading: &[u8]| (services.check)(&GRAMMAR, utterance, reading);
    let nonzero_fill = [0x30, 0x40, 0x40, 0x00, 0xa1];
    for reading in [&RULE_1_AT_65538[..], &RULE_1_AT_65537, &nonzero_fill, &[&RULE_1_AT_65538[..], &[0]].concat()] {
        assert_eq!(check(&COSTS_0_65535, reading), Err(Refusal::ReadingWalk));
        assert_eq!(check(&COSTS_65535_65535, reading), Err(Refusal::ReadingWalk));
    }
    assert_eq!(check(&COSTS_0_65535, &RULE_1_AT_65538[..4]), Err(Refusal::ReadingEnd));
    assert_eq!(check(&COSTS_65535_65535, &RULE_0_AT_5), Err(Refusal::ReadingWalk));
    assert_eq!(check(&COSTS_0_65534, &RULE_1_AT_65538), Err(Refusal::ReadingWeight));
}

/// In blocks and sheets such a candidate is one like the others: counted, and held to the words beside it.
fn such_candidates_count_and_ascend(services: &Services) {
    let refused = [
        (&[1, 0][..], Refusal::UtteranceRange),
        (&[1, 8, 0, 65_535], Refusal::UtteranceRange),
        (&[1, 1, 2, 65_535], Refusal::UtteranceWord),
        (&[1, 2, 1, 65_535, 0, 65_535], Refusal::UtteranceOrder),
        (&[1, 2, 1, 65_535, 0, 9], Refusal::UtteranceOrder),
        (&[1, 2, 0, 65_535, 0, 9], Refusal::UtteranceOrder),
        (&[1, 2, 0, 9, 0, 65_535], Refusal::UtteranceOrder),
        (&[1, 1, 0, 65_536], Refusal::SheetValue),
        (&[1, 2, 0, 65_535], Refusal::SheetCount),
        (&[1, 1, 0, 65_535, 0], Refusal::SheetCount),
    ];
    for (sheet, refusal) in refused {
        assert_eq!((services.utterance_to_block)(&GRAMMAR, sheet, &mut [0; 16]), Err(refusal), "{sheet:?}");
    }
    // blocks with the words the wrong way round
    for costs in [[65_535, 0], [65_535, 65_535], [0, 65_535]] {
        let slot = vec![Candidate { word: 1, cost: costs[0] }, Candidate { word: 0, cost: costs[1] }];
        let under = grammar::from_block(&GRAMMAR).expect("an accepted grammar");
        let block = utterance::pack(&under, &Utterance { slots: vec![slot] });
        assert_eq!((services.utterance_to_sheet)(&GRAMMAR, &block, &mut [0; 16]), Err(Refusal::UtteranceOrder));
        assert_eq!((services.check)(&GRAMMAR, &block, &RULE_0_AT_5), Err(Refusal::UtteranceOrder));
        assert_eq!((services.listing)(&GRAMMAR, &block, 1, &mut [], &mut []), Err(Refusal::UtteranceOrder));
    }
}

/// Two phrases make a phrase; words 0 and 1 are phrases. All rules have one weight.
fn phrases(weight: u32) -> Grammar {
    let bodies = [Body::Pair(0, 0), Body::Word(0), Body::Word(1)];
    let rules = bodies.map(|body| Rule { head: 0, weight, body });
    Grammar { symbols: 1, words: 2, rules: rules.into() }
}

/// Slots of words 0 and 1, by their costs.
fn slots(costs: &[[u32; 2]]) -> Utterance {
    let candidate = |(word, cost)| Candidate { word, cost };
    Utterance { slots: costs.iter().map(|&[zero, one]| [(0, zero), (1, one)].map(candidate).into()).collect() }
}

/// The readings of slots of words 0 and 1 under `phrases`.
fn readings(services: &Services, weight: u32, costs: &[[u32; 2]]) -> Vec<Reading> {
    let under = phrases(weight);
    let (grammar, utterance) = (grammar::pack(&under), utterance::pack(&under, &slots(costs)));
    let reading = |block: &Vec<u8>| reading::from_block(&under, costs.len(), block).expect("a reading").0;
    list(services, &grammar, &utterance, 256).iter().map(reading).collect()
}

fn a_slot_of_only_such_words(services: &Services) {
    for place in 0..3 {
        let mut costs = [[0, NOT_HEARD]; 3];
        assert_eq!(readings(services, 1, &costs).len(), 2);
        costs[place] = [NOT_HEARD, NOT_HEARD];
        assert_eq!(readings(services, 1, &costs), []);
        costs[place] = [NOT_HEARD, NOT_HEARD - 1];
        assert_eq!(readings(services, 1, &costs).len(), 2);
    }
    assert_eq!(readings(services, 1, &[[NOT_HEARD; 2]; 24]), []);
}

/// As the weight of a rule the number is like any other.
fn rules_of_that_weight(services: &Services) {
    let reading = |weight, walk: &[u32]| Reading::of_slots(weight, walk.into());
    assert_eq!(readings(services, 65_535, &[[0, NOT_HEARD]]), [reading(65_535, &[1])]);
    assert_eq!(
        readings(services, 65_535, &[[NOT_HEARD, 4], [7, 65_534]]),
        [reading(3 * 65_535 + 11, &[0, 2, 1]), reading(3 * 65_535 + 65_538, &[0, 2, 2])]
    );
}

/// 47 × 65,535 + 24 × 65,534 over 24 slots, of which each has one word left.
fn the_greatest_weight(services: &Services) {
    let found = readings(services, 65_535, &[[65_534, NOT_HEARD]; 24]);
    assert_eq!(found.len(), 256);
    assert!(found.iter().all(|reading| reading.weight == 4_652_961));
}

/// The specimen has no utterance, and so nothing that was not heard.
fn the_specimen(services: &Services) {
    for weight in [0, 65_535] {
        assert_eq!((services.specimen)(&grammar::pack(&phrases(weight)), 24, &mut [0; 24]), Ok(true));
    }
}

/// "The comparison with document 001 is made after those candidates are struck out": with them and without them the lists are
/// equal, and so are the answers to readings that use them.
fn struck_out_by_hand(services: &Services) {
    let (mut shorter, mut silent) = (0, 0);
    over_seeds(0..4_000, |rng| {
        let shape = rng.pick(&[&TINY, &AMBIGUOUS, &SPARSE]);
        let (grammar, utterance) = case(rng, shape);
        let mut by_hand = utterance.clone();
        by_hand.slots.iter_mut().for_each(|slot| slot.retain(|candidate| candidate.cost != 65_535));
        if by_hand == utterance {
            return;
        }
        let context = || format!("{grammar:?} {utterance:?}");
        let (grammar_block, utterance_block) = (grammar::pack(&grammar), utterance::pack(&grammar, &utterance));
        let listed = list(services, &grammar_block, &utterance_block, 100);
        if by_hand.slots.contains(&Vec::new()) {
            // no block can hold it
            assert!(listed.is_empty(), "{listed:02x?} {}", context());
            silent += 1;
            return;
        }
        let by_hand = utterance::pack(&grammar, &by_hand);
        assert_eq!(listed, list(services, &grammar_block, &by_hand, 100), "{}", context());
        let with_all: Vec<Vec<u8>> = nbest::least(&grammar, &heard_at(0, &utterance), 100)
            .iter()
            .map(|reading| reading::pack(&grammar, reading))
            .collect();
        shorter += usize::from(listed.len() < with_all.len());
        for reading in with_all {
            let check = |utterance: &[u8]| (services.check)(&grammar_block, utterance, &reading);
            assert_eq!(check(&utterance_block), check(&by_hand), "{} {reading:02x?}", context());
        }
    });
    assert!(shorter > 300 && silent > 100, "{shorter} lists are shorter, {silent} have a slot of only such words");
}
