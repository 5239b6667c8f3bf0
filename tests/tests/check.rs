//! The library's check beside the second implementation, on readings of real derivations, on damaged ones and on noise.

use spireyerba::limits::{nodes, NOT_HEARD, READING_BLOCK_MAX};
use spireyerba::Refusal::*;
use spireyerba::{Grammar, Reading, Utterance};
use spireyerba_tests::compare::check::{compare, compare_with_surplus};
use spireyerba_tests::compare::{over_seeds, Tally};
use spireyerba_tests::nbest::least;
use spireyerba_tests::reading::{count_not_heard, words};
use spireyerba_tests::refusal::{GRAMMAR_BLOCK, READING_BLOCK, UTTERANCE_BLOCK};
use spireyerba_tests::seeded::damage::{blocks, rule_number, some_grammar_blocks, some_utterance_blocks};
use spireyerba_tests::seeded::parsable::{any_shape, case, utterance_of, AMBIGUOUS, SPARSE, TINY};
use spireyerba_tests::seeded::rng::Rng;
use spireyerba_tests::seeded::utterances::{heard_at, unheard};
use spireyerba_tests::{grammar, reading, utterance};

/// More bits than a reading has: each is turned.
const EVERY_BIT: usize = 8 * READING_BLOCK_MAX;

/// The reading with another weight, with one number replaced, and with two numbers exchanged.
fn altered(rng: &mut Rng, grammar: &Grammar, reading: &Reading) -> Vec<Reading> {
    let weights = [reading.weight + 1, reading.weight.wrapping_sub(1), 0, (1 << 24) - 1];
    let mut all: Vec<Reading> = weights.map(|weight| Reading { weight, ..reading.clone() }).into();
    for at in 0..reading.walk.len() {
        let mut replaced = reading.clone();
        replaced.walk[at] = rule_number(rng, grammar);
        let mut exchanged = reading.clone();
        exchanged.walk.swap(at, rng.below(reading.walk.len()));
        all.extend([replaced, exchanged]);
    }
    all
}

/// Walks of as many numbers as the utterance needs, of derivations over fewer slots and over more.
fn early_and_late(rng: &mut Rng, grammar: &Grammar, utterance: &Utterance) -> Vec<Reading> {
    let slots = utterance.slots.len();
    let fewer = Utterance { slots: utterance.slots[..rng.below(slots)].to_vec() };
    let mut more = Utterance { slots: [utterance.slots.as_slice(), &utterance.slots].concat() };
    more.slots.truncate((slots + 1 + rng.below(slots)).min(24));
    let mut all = vec![Reading::default()];
    for other in [fewer, more].iter().filter(|other| !other.slots.is_empty()) {
        all.extend(least(grammar, other, 2));
    }
    for reading in &mut all {
        reading.walk.resize_with(nodes(slots).max(reading.walk.len()), || rule_number(rng, grammar));
        reading.walk.truncate(nodes(slots));
    }
    all
}

/// Readings of derivations but that they use words which were not heard: with the weight that has the costs of these in it,
/// and with the weight that has not.
fn of_words_not_heard(grammar: &Grammar, utterance: &Utterance) -> Vec<Reading> {
    let mut all = Vec::new();
    for reading in least(grammar, &heard_at(0, utterance), 3) {
        let not_heard = count_not_heard(grammar, utterance, &reading.walk) as u32;
        if not_heard > 0 {
            all.push(Reading { weight: reading.weight + not_heard * NOT_HEARD, ..reading.clone() });
            all.push(reading);
        }
    }
    all
}

/// The utterance in which a word that the reading uses was not heard.
fn without_a_word(rng: &mut Rng, grammar: &Grammar, utterance: &Utterance, reading: &Reading) -> Utterance {
    let slot = rng.below(utterance.slots.len());
    unheard(utterance, slot, words(grammar, &reading.walk)[slot])
}

#[test]
fn readings_of_derivations_damaged_ones_and_noise() {
    let mut tally = Tally::default();
    over_seeds(0..400, |rng| {
        let shape = any_shape(rng);
        let (grammar, utterance) = case(rng, shape);
        let (grammar_block, utterance_block) = (grammar::pack(&grammar), utterance::pack(&grammar, &utterance));
        let mut readings = early_and_late(rng, &grammar, &utterance);
        let mut inputs = Vec::new();
        let not_heard = of_words_not_heard(&grammar, &utterance);
        for reading in least(&grammar, &utterance, 3).iter().chain(not_heard.first()) {
            inputs.extend(blocks(rng, &reading::pack(&grammar, reading), EVERY_BIT));
            readings.extend(altered(rng, &grammar, reading));
        }
        let other = utterance_of(rng, &grammar, shape);
        readings.extend(least(&grammar, &other, 5));
        inputs.extend(readings.iter().map(|reading| reading::pack(&grammar, reading)));
        inputs.extend((0..10).map(|length| rng.noise(length)));
        for reading in &inputs {
            compare(rng, &mut tally, [&grammar_block, &utterance_block, reading]);
        }
        let reading = &inputs[rng.below(inputs.len())];
        for damaged in some_grammar_blocks(rng, &grammar, 6) {
            compare(rng, &mut tally, [&damaged, &utterance_block, reading]);
        }
        for damaged in some_utterance_blocks(rng, &grammar, &utterance, 6) {
            compare(rng, &mut tally, [&grammar_block, &damaged, reading]);
        }
    });
    // a random kind can be that of a graph, whose edges are then random too
    tally.demand(20_000, &[GRAMMAR_BLOCK.as_slice(), &UTTERANCE_BLOCK, &READING_BLOCK, &[EdgePlaces]].concat());
    assert!(tally.accepted() > 1_000, "{} readings passed", tally.accepted());
}

/// They would pass, or be refused for their weight or their fill, if the word were offered.
#[test]
fn readings_that_use_a_word_not_heard_are_no_walks() {
    let mut tally = Tally::default();
    over_seeds(10_000..12_000, |rng| {
        let shape = rng.pick(&[&TINY, &AMBIGUOUS, &SPARSE]);
        let (grammar, utterance) = case(rng, shape);
        let mut inputs: Vec<(Utterance, Reading)> =
            of_words_not_heard(&grammar, &utterance).into_iter().map(|reading| (utterance.clone(), reading)).collect();
        for reading in least(&grammar, &utterance, 3) {
            inputs.push((without_a_word(rng, &grammar, &utterance, &reading), reading));
        }
        let grammar_block = grammar::pack(&grammar);
        for (utterance, reading) in inputs {
            let (utterance, reading) = (utterance::pack(&grammar, &utterance), reading::pack(&grammar, &reading));
            compare_with_surplus(rng, &mut tally, [&grammar_block, &utterance, &reading]);
        }
    });
    tally.demand(10_000, &[ReadingWalk]);
    assert_eq!(tally.accepted(), 0, "readings that passed");
}
