//! The conversions of grammars and utterances by the library beside the second implementation, on seeded inputs, valid and damaged.

use spireyerba::limits::{UTTERANCE_BLOCK_MAX, UTTERANCE_SHEET_MAX};
use spireyerba::Refusal::*;
use spireyerba::{services, Grammar};
use spireyerba_tests::compare::conversions::{Conversion, GRAMMAR_TO_BLOCK, GRAMMAR_TO_SHEET};
use spireyerba_tests::compare::{over_seeds, Tally};
use spireyerba_tests::refusal::{GRAMMAR_BLOCK, GRAMMAR_SHEET, UTTERANCE_BLOCK};
use spireyerba_tests::seeded::damage::{blocks, repeated_rule, sheets, some_grammar_blocks};
use spireyerba_tests::seeded::grammars::{grammar, Size};
use spireyerba_tests::seeded::graphs::graph;
use spireyerba_tests::seeded::raw;
use spireyerba_tests::seeded::rng::{Noise, Rng};
use spireyerba_tests::seeded::utterances::utterance;
use spireyerba_tests::{conversions, grammar, graph, utterance};
use std::fmt::Debug;
use std::hash::Hash;

const UTTERANCE_TO_BLOCK: Conversion<u32, u8> = Conversion {
    library: services::utterance_to_block,
    second: conversions::utterance_to_block,
    longest: UTTERANCE_BLOCK_MAX,
};
const UTTERANCE_TO_SHEET: Conversion<u8, u32> = Conversion {
    library: services::utterance_to_sheet,
    second: conversions::utterance_to_sheet,
    longest: UTTERANCE_SHEET_MAX,
};

/// Compares under damaged grammars on an input and on some other, then under the grammar on all others.
fn compare_under<I: Noise + PartialEq + Debug + Hash, O: Noise + PartialEq + Debug>(
    conversion: &Conversion<I, O>,
    rng: &mut Rng,
    tally: &mut Tally,
    grammar: &Grammar,
    input: &[I],
    others: &[Vec<I>],
) {
    for damaged in some_grammar_blocks(rng, grammar, 10) {
        conversion.compare(rng, tally, &damaged, input);
        let other = rng.below(others.len());
        conversion.compare(rng, tally, &damaged, &others[other]);
    }
    conversion.compare_each(rng, tally, &grammar::pack(grammar), others);
}

#[test]
fn grammar_sheets_to_blocks() {
    let mut tally = Tally::default();
    over_seeds(0..400, |rng| {
        let size = Size::any(rng);
        let grammar = grammar(rng, size);
        let mut inputs = sheets(rng, &grammar.to_sheet(), 60);
        inputs.push(repeated_rule(rng, &grammar).to_sheet());
        inputs.extend((0..50).map(|_| raw::grammar_sheet(rng)));
        GRAMMAR_TO_BLOCK.compare_each(rng, &mut tally, &[], &inputs);
    });
    tally.demand(20_000, &[GRAMMAR_SHEET.as_slice(), &[OutputShort]].concat());
}

#[test]
fn grammar_blocks_to_sheets() {
    let mut tally = Tally::default();
    over_seeds(1_000..1_300, |rng| {
        let size = Size::any(rng);
        let grammar = grammar(rng, size);
        let mut inputs = blocks(rng, &grammar::pack(&grammar), 300);
        inputs.push(grammar::pack(&repeated_rule(rng, &grammar)));
        inputs.extend((0..50).map(|_| raw::grammar_block(rng)));
        inputs.extend((0..10).map(|length| rng.noise(length)));
        GRAMMAR_TO_SHEET.compare_each(rng, &mut tally, &[], &inputs);
    });
    tally.demand(20_000, &[GRAMMAR_BLOCK.as_slice(), &[OutputShort]].concat());
}

#[test]
fn utterance_sheets_to_blocks() {
    let mut tally = Tally::default();
    over_seeds(2_000..2_300, |rng| {
        let size = Size::any(rng);
        let grammar = grammar(rng, size);
        let sheet = utterance(rng, size, grammar.words).to_sheet();
        let mut inputs = sheets(rng, &sheet, 60);
        inputs.extend((0..50).map(|_| raw::utterance_sheet(rng, grammar.words)));
        compare_under(&UTTERANCE_TO_BLOCK, rng, &mut tally, &grammar, &sheet, &inputs);
    });
    let sheet = [UtteranceRange, UtteranceWord, UtteranceOrder, SheetCount, SheetValue, OutputShort];
    tally.demand(20_000, &[GRAMMAR_BLOCK.as_slice(), &sheet].concat());
}

#[test]
fn utterance_blocks_to_sheets() {
    let mut tally = Tally::default();
    over_seeds(3_000..3_300, |rng| {
        let size = Size::any(rng);
        let grammar = grammar(rng, size);
        let utterance = utterance::pack(&grammar, &utterance(rng, size, grammar.words));
        let mut inputs = blocks(rng, &utterance, 300);
        inputs.extend((0..50).map(|_| raw::utterance_block(rng, grammar.words)));
        // a word graph has no sheet
        inputs.push(graph::pack(&grammar, &graph(rng, size, grammar.words)));
        inputs.extend((0..10).map(|length| rng.noise(length)));
        compare_under(&UTTERANCE_TO_SHEET, rng, &mut tally, &grammar, &utterance, &inputs);
    });
    tally.demand(20_000, &[GRAMMAR_BLOCK.as_slice(), &UTTERANCE_BLOCK, &[OutputShort]].concat());
}
