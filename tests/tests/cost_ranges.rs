//! The library's answer for costs known within ranges beside document 02's examples, beside the second implementation's, which
//! tries every choice, and beside listings for choices drawn at random.

use spireyerba::limits::{work_length, NOT_HEARD};
use spireyerba::services::{self, FirstReading};
use spireyerba::Refusal::*;
use spireyerba::{Candidate, Grammar, Refusal, Utterance};
use spireyerba_tests::compare::cost_ranges::compare;
use spireyerba_tests::compare::{over_seeds, Tally};
use spireyerba_tests::cost_ranges::{cost_ranges, weight};
use spireyerba_tests::documents::{FIFTH, FIFTH_AT_0};
use spireyerba_tests::nbest::least;
use spireyerba_tests::refusal::{GRAMMAR_BLOCK, UTTERANCE_BLOCK};
use spireyerba_tests::seeded::damage::{some_grammar_blocks, some_utterance_blocks};
use spireyerba_tests::seeded::parsable::{case, cheaper, graph_case, lighter, Shape};
use spireyerba_tests::seeded::parsable::{AMBIGUOUS, GREATEST, LONG, MANY_SYMBOLS, SPARSE, TINY, WORDY};
use spireyerba_tests::seeded::rng::Rng;
use spireyerba_tests::{grammar, graph, tests_of_both, utterance};

type CostRanges = fn(&[u8], &[u8], &[u8], &mut [u32], &mut u32, &mut u32) -> Result<FirstReading, Refusal>;

/// The greatest costs of the fifth grammar's slots.
const UP_TO_9_1_1_9: [u8; 11] = [0x20, 0x90, 0x00, 0x12, 0x80, 0x00, 0xa8, 0x00, 0x07, 0x00, 0x09];
const UP_TO_9_2_2_9: [u8; 11] = [0x20, 0x90, 0x00, 0x12, 0x80, 0x01, 0x28, 0x00, 0x0b, 0x00, 0x09];
const UP_TO_9_3_2_9: [u8; 11] = [0x20, 0x90, 0x00, 0x12, 0x80, 0x01, 0xa8, 0x00, 0x0b, 0x00, 0x09];

/// What neither number may become unless it is written.
const UNWRITTEN: u32 = 0xa5a5_a5a5;

/// The answer with both numbers, for a work table of so many numbers.
fn answer(service: CostRanges, blocks: [&[u8]; 3], work_len: usize) -> (Result<FirstReading, Refusal>, [u32; 2]) {
    let mut work = vec![UNWRITTEN; work_len];
    let [mut least, mut greatest] = [UNWRITTEN; 2];
    let answer = service(blocks[0], blocks[1], blocks[2], &mut work, &mut least, &mut greatest);
    let after = if answer.is_ok() { 0 } else { UNWRITTEN };
    assert!(work.iter().all(|&number| number == after), "{work:x?}");
    (answer, [least, greatest])
}

/// A block of the fifth grammar's slots, with words 0 and 1, then 2 and 3, at these costs.
fn slots(costs: [[u32; 2]; 2]) -> Vec<u8> {
    let slot = |first: u32, costs: [u32; 2]| -> Vec<Candidate> {
        (first..).zip(costs).map(|(word, cost)| Candidate { word, cost }).collect()
    };
    let utterance = Utterance { slots: vec![slot(0, costs[0]), slot(2, costs[1])] };
    utterance::pack(&grammar::from_block(&FIFTH).expect("document 01's grammar"), &utterance)
}

fn document_02s_examples(service: CostRanges) {
    use FirstReading::{Nothing, Outweighed, Stands};
    let expect = |low: &[u8], high: &[u8], first, weights| {
        assert_eq!(answer(service, [&FIFTH, low, high], 36), (Ok(first), weights));
    };
    expect(&FIFTH_AT_0, &FIFTH_AT_0, Stands, [4, 4]);
    expect(&FIFTH_AT_0, &UP_TO_9_1_1_9, Stands, [4, 6]);
    // a tie does not outweigh
    expect(&FIFTH_AT_0, &UP_TO_9_2_2_9, Stands, [4, 8]);
    expect(&FIFTH_AT_0, &UP_TO_9_3_2_9, Outweighed, [4, 9]);
    // what was not heard is in no reading, whatever the ranges of the rest
    let silent = slots([[0, NOT_HEARD], [0, 0]]);
    expect(&silent, &slots([[7, NOT_HEARD], [9, 9]]), Outweighed, [6, 22]);
    let nothing = slots([[NOT_HEARD, NOT_HEARD], [0, 0]]);
    expect(&nothing, &nothing, Nothing, [UNWRITTEN, UNWRITTEN]);
}

fn document_02s_refusals(service: CostRanges) {
    let expect = |blocks: [&[u8]; 3], work_len, refusal| {
        assert_eq!(answer(service, blocks, work_len), (Err(refusal), [UNWRITTEN; 2]), "{blocks:02x?}");
    };
    let one = slots([[1, 1], [1, 1]]);
    expect([&FIFTH, &one, &slots([[1, 1], [1, 0]])], 36, RangesDisagree);
    expect([&FIFTH, &slots([[0, 65_534], [0, 0]]), &slots([[0, NOT_HEARD], [0, 0]])], 36, RangesDisagree);
    // 59 comes before 22, and 36 numbers suffice
    expect([&FIFTH, &one, &FIFTH_AT_0], 0, RangesDisagree);
    expect([&FIFTH, &FIFTH_AT_0, &one], 35, ListingWork);
    // the blocks' own checks, the low block's first
    let graph = [0x52, 0x84, 0x00, 0x40, 0x00, 0x10, 0x89, 0x00, 0x01, 0x10, 0xe0, 0x00, 0x11, 0x93, 0x00, 0x01];
    expect([&FIFTH, &graph, &FIFTH_AT_0[..5]], 0, UtteranceKind);
    expect([&FIFTH, &FIFTH_AT_0, &graph], 0, UtteranceKind);
    expect([&FIFTH, &FIFTH_AT_0[..10], &graph], 0, UtteranceEnd);
    expect([&FIFTH, &FIFTH_AT_0, &FIFTH_AT_0[..10]], 0, UtteranceEnd);
    expect([&[], &[], &[]], 0, GrammarEnd);
}

tests_of_both! { services::cost_ranges, cost_ranges; document_02s_examples document_02s_refusals }

/// Costs that rise by at most this much, of at most so many words, in an utterance whose costs leave room for it.
fn risen(rng: &mut Rng, low: &mut Utterance, by: u32, words: usize) -> Utterance {
    for candidate in low.slots.iter_mut().flatten() {
        if candidate.is_offered() {
            candidate.cost = candidate.cost.min(NOT_HEARD - 1 - by);
        }
    }
    let mut high = low.clone();
    for _ in 0..words {
        let slot = rng.below(high.slots.len());
        // the cheapest is likely a word of the first reading, whose rise can make another lighter
        let cheapest = (0..low.slots[slot].len()).min_by_key(|&place| low.slots[slot][place].cost);
        let place = cheapest.filter(|_| rng.once_in(2)).unwrap_or_else(|| rng.below(high.slots[slot].len()));
        if low.slots[slot][place].is_offered() {
            high.slots[slot][place].cost = low.slots[slot][place].cost + rng.within(0..=by);
        }
    }
    high
}

/// An utterance that is not alike but for rising costs.
fn unlike(rng: &mut Rng, grammar: &Grammar, low: &Utterance, high: &Utterance) -> Utterance {
    let mut other = high.clone();
    let slot = rng.below(other.slots.len());
    let place = rng.below(other.slots[slot].len());
    let before = low.slots[slot][place];
    match rng.below(6) {
        0 if other.slots.len() > 1 => drop(other.slots.pop()),
        1 if other.slots.len() < 24 => other.slots.push(other.slots[slot].clone()),
        2 if other.slots[slot].len() > 1 => drop(other.slots[slot].remove(place)),
        3 if other.slots[slot].last().is_some_and(|last| last.word + 1 < grammar.words)
            && other.slots[slot].len() < 7 =>
        {
            let word = grammar.words - 1;
            other.slots[slot].push(Candidate { word, cost: 0 });
        }
        4 if before.cost > 0 => other.slots[slot][place].cost = before.cost - 1,
        _ => {
            let cost = if before.is_offered() { NOT_HEARD } else { before.cost - 1 };
            other.slots[slot][place].cost = cost;
        }
    }
    other
}

fn shape(rng: &mut Rng) -> &'static Shape {
    rng.pick(&[&TINY, &TINY, &AMBIGUOUS, &SPARSE, &LONG, &MANY_SYMBOLS])
}

fn work_len(rng: &mut Rng, grammar: &Grammar, utterance: &Utterance) -> usize {
    let enough = work_length(grammar.symbols as usize, utterance.slots.len(), 1);
    match rng.below(8) {
        0 => enough - 1,
        1 => rng.below(enough),
        2 => enough + rng.below(40),
        _ => enough,
    }
}

#[test]
fn every_choice_of_small_ranges() {
    let mut tally = Tally::default();
    let (mut outweighed, mut stand) = (0, 0);
    over_seeds(0..1_000, |rng| {
        let shape = rng.pick(&[&TINY, &AMBIGUOUS, &SPARSE, &WORDY, &WORDY]);
        let (mut grammar, mut low) = case(rng, shape);
        // mostly weights and costs that are near to each other, so that a small rise matters
        if !rng.once_in(4) {
            lighter(&mut grammar, 3);
            cheaper(&mut low, 6);
        }
        let (by, words) = rng.pick(&[(1, 8), (2, 5), (3, 4), (8, 3), (30, 2)]);
        let high = risen(rng, &mut low, by, words);
        let blocks = [grammar::pack(&grammar), utterance::pack(&grammar, &low), utterance::pack(&grammar, &high)];
        let work_len = work_len(rng, &grammar, &low);
        match compare(rng, &mut tally, [&blocks[0], &blocks[1], &blocks[2]], work_len) {
            Some((FirstReading::Outweighed, _)) => outweighed += 1,
            Some((FirstReading::Stands, _)) => stand += 1,
            _ => {}
        }
    });
    tally.demand(950, &[ListingWork]);
    assert!(outweighed > 120 && stand > 300, "{outweighed} outweighed, {stand} stand");
}

#[test]
fn wide_ranges_damaged_blocks_and_unlike_ones() {
    let mut tally = Tally::default();
    over_seeds(0..150, |rng| {
        let shape = shape(rng);
        let (grammar, mut low) = case(rng, shape);
        let by = rng.pick(&[1, 5, 100, 65_534]);
        let words = rng.below(5);
        let high = risen(rng, &mut low, by, words);
        let block = grammar::pack(&grammar);
        let (low_block, high_block) = (utterance::pack(&grammar, &low), utterance::pack(&grammar, &high));
        let mut expect = |rng: &mut Rng, blocks: [&[u8]; 3]| {
            let work_len = work_len(rng, &grammar, &low);
            compare(rng, &mut tally, blocks, work_len);
        };
        expect(rng, [&block, &low_block, &high_block]);
        for _ in 0..6 {
            let other = utterance::pack(&grammar, &unlike(rng, &grammar, &low, &high));
            expect(rng, [&block, &low_block, &other]);
            expect(rng, [&block, &other, &high_block]);
        }
        for damaged in some_grammar_blocks(rng, &grammar, 3) {
            expect(rng, [&damaged, &low_block, &low_block]);
        }
        for damaged in some_utterance_blocks(rng, &grammar, &low, 6) {
            expect(rng, [&block, &damaged, &low_block]);
            expect(rng, [&block, &low_block, &damaged]);
        }
        let (_, graph) = graph_case(rng, shape);
        let graph = graph::pack(&grammar, &graph);
        expect(rng, [&block, &graph, &low_block]);
        expect(rng, [&block, &low_block, &graph]);
    });
    tally.demand(3_000, &[&GRAMMAR_BLOCK[..], &UTTERANCE_BLOCK, &[ListingWork, RangesDisagree]].concat());
    assert!(tally.accepted() > 300, "{} accepted", tally.accepted());
}

/// Where there are too many choices to try, some are drawn: no first weight leaves the range, and where the first reading stands
/// none is lighter.
#[test]
fn drawn_choices_of_the_greatest_inputs() {
    over_seeds(0..30, |rng| {
        let shape = rng.pick(&[&LONG, &MANY_SYMBOLS, &GREATEST]);
        let (grammar, mut low) = case(rng, shape);
        let high = risen(rng, &mut low, 40, 60);
        let blocks = [grammar::pack(&grammar), utterance::pack(&grammar, &low), utterance::pack(&grammar, &high)];
        let needed = work_length(grammar.symbols as usize, low.slots.len(), 1);
        let (first, [lowest, greatest]) = answer(services::cost_ranges, [&blocks[0], &blocks[1], &blocks[2]], needed);
        let lightest = |utterance: &Utterance| least(&grammar, utterance, 1).pop();
        let Some(first_reading) = lightest(&low) else {
            assert_eq!(first, Ok(FirstReading::Nothing));
            return;
        };
        let of_high = lightest(&high).expect("a derivation under every choice");
        assert_eq!((first_reading.weight, of_high.weight), (lowest, greatest));
        for _ in 0..4 {
            let mut choice = low.clone();
            for (candidate, high) in choice.slots.iter_mut().flatten().zip(high.slots.iter().flatten()) {
                candidate.cost = rng.within(candidate.cost..=high.cost);
            }
            let found = lightest(&choice).expect("a derivation under every choice").weight;
            assert!((lowest..=greatest).contains(&found), "{found} is not from {lowest} to {greatest}");
            let own = weight(&grammar, &choice, &first_reading.walk);
            assert!(first == Ok(FirstReading::Outweighed) || own == found, "{own} is outweighed by {found}");
        }
    });
}
