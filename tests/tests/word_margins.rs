//! Which word to listen to again (document 02, N12): its examples, beside the second implementation, and held to listings of
//! utterances whose costs are changed.

use spireyerba::limits::{margins_length, work_length, NOT_HEARD};
use spireyerba::services;
use spireyerba::Refusal::{self, *};
use spireyerba::{Grammar, Lister, Utterance};
use spireyerba_tests::compare::word_margins::compare;
use spireyerba_tests::compare::{over_seeds, Tally};
use spireyerba_tests::documents::FIFTH;
use spireyerba_tests::refusal::{GRAMMAR_BLOCK, UTTERANCE_BLOCK};
use spireyerba_tests::seeded::damage::{some_grammar_blocks, some_utterance_blocks, with_one_damaged};
use spireyerba_tests::seeded::parsable::{case, cheaper, graph_case, lighter};
use spireyerba_tests::seeded::parsable::{AMBIGUOUS, GREATEST, LONG, MANY_SYMBOLS, SPARSE, TINY, WORDY};
use spireyerba_tests::seeded::rng::Rng;
use spireyerba_tests::word_margins::{entries, with_fallen_cost, word_margins, words_of, Entry, MOST_TRIED};
use spireyerba_tests::{grammar, graph, tests_of_both, utterance};

type WordMargins = fn(&[u8], &[u8], &mut [u32], &mut [u32]) -> Result<usize, Refusal>;

/// The fifth grammar's slots by their costs.
const COSTS_4_7_3_2: [u8; 11] = [0x20, 0x90, 0x00, 0x08, 0x80, 0x03, 0xa8, 0x00, 0x0f, 0x00, 0x02];
const COSTS_4_3_0_9: [u8; 11] = [0x20, 0x90, 0x00, 0x08, 0x80, 0x01, 0xa8, 0x00, 0x03, 0x00, 0x09];
const NOT_HEARD_IN_FIRST: [u8; 11] = [0x20, 0x90, 0x00, 0x08, 0xff, 0xff, 0xa8, 0x00, 0x0f, 0x00, 0x02];
/// Words 0 at 5 and 2 at 8, of which no rule has the second as a first part.
const NO_RULE_HAS_IT: [u8; 11] = [0x20, 0x90, 0x00, 0x0b, 0x00, 0x04, 0x28, 0x00, 0x03, 0x00, 0x09];

/// What neither slice may hold unless it is written.
const UNWRITTEN: u32 = 0xa5a5_a5a5;

/// The answer with the numbers written, for slices of these lengths.
fn answer(
    service: WordMargins,
    blocks: [&[u8]; 2],
    work_len: usize,
    out_len: usize,
) -> (Result<usize, Refusal>, Vec<u32>) {
    let (mut work, mut out) = (vec![UNWRITTEN; work_len], vec![UNWRITTEN; out_len]);
    let answer = service(blocks[0], blocks[1], &mut work, &mut out);
    let after = if answer.is_ok() { 0 } else { UNWRITTEN };
    assert!(work.iter().all(|&number| number == after), "{work:x?}");
    let written = 4 * answer.unwrap_or(0);
    assert!(out[written..].iter().all(|&number| number == UNWRITTEN), "{out:x?}");
    out.truncate(written);
    (answer, out)
}

fn document_02s_examples(service: WordMargins) {
    let expect = |heard: &[u8], entries: &[Entry]| {
        assert_eq!(answer(service, [&FIFTH, heard], 36, 16), (Ok(entries.len()), entries.concat()));
    };
    expect(&COSTS_4_7_3_2, &[[2, 0, 1, 14], [2, 1, 3, 14]]);
    expect(&COSTS_4_3_0_9, &[[4, 0, 0, 10]]);
    expect(&NOT_HEARD_IN_FIRST, &[[2, 1, 3, 14]]);
    expect(&NO_RULE_HAS_IT, &[]);
    // no reading: one slot
    expect(&[0x20, 0x50, 0x00, 0x08, 0x80, 0x03, 0x80], &[]);
}

fn document_02s_refusals(service: WordMargins) {
    let expect = |blocks: [&[u8]; 2], work_len, out_len, refusal| {
        assert_eq!(answer(service, blocks, work_len, out_len), (Err(refusal), Vec::new()), "{blocks:02x?}");
    };
    let slots = &COSTS_4_7_3_2;
    expect([&FIFTH, slots], 35, 16, ListingWork);
    expect([&FIFTH, slots], 35, 15, ListingWork);
    expect([&FIFTH, slots], 36, 15, OutputShort);
    // what was not heard takes room too, and so does what has no entry
    expect([&FIFTH, &NOT_HEARD_IN_FIRST], 36, 15, OutputShort);
    expect([&FIFTH, &NO_RULE_HAS_IT], 36, 15, OutputShort);
    let graph = [0x52, 0x84, 0x00, 0x40, 0x00, 0x10, 0x89, 0x00, 0x01, 0x10, 0xe0, 0x00, 0x11, 0x93, 0x00, 0x01];
    expect([&FIFTH, &graph], 0, 0, UtteranceKind);
    expect([&FIFTH, &slots[..10]], 0, 0, UtteranceEnd);
    expect([&FIFTH[..16], &slots[..10]], 0, 0, GrammarEnd);
}

tests_of_both! { services::word_margins, word_margins; document_02s_examples document_02s_refusals }

/// The lengths of both slices that are needed, or others.
fn lengths(rng: &mut Rng, grammar: &Grammar, utterance: &Utterance) -> (usize, usize) {
    let work = work_length(grammar.symbols as usize, utterance.slots.len(), 1);
    let out = margins_length(utterance.slots.iter().flatten().count());
    match rng.below(8) {
        0 => (work - 1, out),
        1 => (work, out - 1),
        2 => (rng.below(work), rng.below(out)),
        3 => (work + rng.below(40), out + rng.below(40)),
        _ => (work, out),
    }
}

/// Amounts tried one by one from 1 on.
#[test]
fn every_amount_of_small_costs() {
    let (mut tally, mut met, mut with_ties) = (Tally::default(), 0, 0);
    over_seeds(0..4_000, |rng| {
        let shape = rng.pick(&[&TINY, &AMBIGUOUS, &SPARSE, &WORDY, &WORDY]);
        let (mut grammar, mut utterance) = case(rng, shape);
        let (weights, costs) = (rng.pick(&[1, 4, 40]), rng.pick(&[1, 3, 12, 60, 60, MOST_TRIED]));
        lighter(&mut grammar, weights);
        cheaper(&mut utterance, costs);
        let blocks = [grammar::pack(&grammar), utterance::pack(&grammar, &utterance)];
        let (work_len, out_len) = lengths(rng, &grammar, &utterance);
        if let Some(entries) = compare(rng, &mut tally, [&blocks[0], &blocks[1]], work_len, out_len) {
            met += entries.len();
            with_ties += usize::from(entries.windows(2).any(|pair| pair[0][0] == pair[1][0]));
        }
    });
    tally.demand(3_500, &[ListingWork, OutputShort]);
    assert!(met > 1_000 && with_ties > 100, "{met} entries, {with_ties} lists with two of one amount");
}

#[test]
fn any_costs_and_damaged_blocks() {
    let mut tally = Tally::default();
    over_seeds(10_000..10_120, |rng| {
        let shape = rng.pick(&[&TINY, &SPARSE]);
        let (grammar, utterance) = case(rng, shape);
        let blocks = [grammar::pack(&grammar), utterance::pack(&grammar, &utterance)];
        let grammars = some_grammar_blocks(rng, &grammar, 6);
        let mut damaged = some_utterance_blocks(rng, &grammar, &utterance, 12);
        let (_, graph) = graph_case(rng, shape);
        damaged.push(graph::pack(&grammar, &graph));
        for [grammar_block, heard] in [blocks.clone()].iter().chain(&with_one_damaged(&blocks, grammars, damaged)) {
            let (work_len, out_len) = lengths(rng, &grammar, &utterance);
            compare(rng, &mut tally, [grammar_block, heard], work_len, out_len);
        }
    });
    tally.demand(1_500, &[&GRAMMAR_BLOCK[..], &UTTERANCE_BLOCK, &[ListingWork, OutputShort]].concat());
    assert!(tally.accepted() > 300, "{} accepted", tally.accepted());
}

/// The sentence itself, by listings of the library: with the cost changed some reading is lighter, with a fall smaller by one none
/// is, and of a word that is left out none is whatever it costs.
#[test]
fn listings_afresh() {
    let (mut listed, mut left_out) = (0, 0);
    over_seeds(20_000..20_300, |rng| {
        let shape = rng.pick(&[&LONG, &MANY_SYMBOLS, &AMBIGUOUS, &WORDY]);
        let (mut grammar, mut utterance) = case(rng, shape);
        if !rng.once_in(3) {
            lighter(&mut grammar, 200);
            cheaper(&mut utterance, 1_000);
        }
        expect_sentence(&grammar, &utterance, &mut listed, &mut left_out);
    });
    over_seeds(30_000..30_003, |rng| {
        let (grammar, utterance) = case(rng, &GREATEST);
        expect_sentence(&grammar, &utterance, &mut listed, &mut left_out);
    });
    assert!(listed > 300 && left_out > 300, "{listed} listed, {left_out} left out");
}

fn expect_sentence(grammar: &Grammar, utterance: &Utterance, listed: &mut usize, left_out: &mut usize) {
    let margins = grammar.word_margins(utterance).expect("margins");
    let mut lister = Lister::new(grammar).expect("an accepted grammar");
    let Some(first) = lister.list(utterance, 1).expect("a list").pop() else {
        assert_eq!(margins, []);
        return;
    };
    let used = words_of(grammar, &first);
    let mut is_lighter = |slot: usize, word, amount| {
        let fallen = with_fallen_cost(utterance, slot, word, amount);
        lister.list(&fallen, 1).expect("a list")[0].weight < first.weight
    };
    for (slot, words) in utterance.slots.iter().enumerate() {
        for candidate in words {
            let margin =
                margins.iter().find(|margin| (margin.slot as usize, margin.word) == (slot, candidate.word)).copied();
            if candidate.cost == NOT_HEARD || candidate.word == used[slot] {
                assert_eq!(margin, None);
                continue;
            }
            match margin {
                Some(margin) => {
                    assert!((1..=candidate.cost).contains(&margin.amount), "{margin:?}");
                    assert!(is_lighter(slot, candidate.word, margin.amount), "{margin:?}");
                    assert!(!is_lighter(slot, candidate.word, margin.amount - 1), "{margin:?}");
                    assert_eq!(margin.weight + 1, first.weight + margin.amount, "{margin:?}");
                    *listed += 1;
                }
                None => {
                    assert!(!is_lighter(slot, candidate.word, candidate.cost), "slot {slot}, {candidate:?}");
                    *left_out += 1;
                }
            }
        }
    }
    let keys: Vec<_> = margins.iter().map(|margin| (margin.amount, margin.slot, margin.word)).collect();
    assert!(keys.is_sorted(), "{margins:?}");
}

/// The values of the crate are the entries.
#[test]
fn the_crate_has_the_same() {
    over_seeds(40_000..40_100, |rng| {
        let (mut grammar, mut utterance) = case(rng, &WORDY);
        lighter(&mut grammar, 20);
        cheaper(&mut utterance, 50);
        let margins = grammar.word_margins(&utterance).expect("margins");
        let numbers: Vec<Entry> =
            margins.iter().map(|margin| [margin.amount, margin.slot, margin.word, margin.weight]).collect();
        assert_eq!(numbers, entries(&grammar, &utterance));
    });
}
