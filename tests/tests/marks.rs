//! Grammars with marks (document 02, N5): the known sheets and blocks, both conversions beside the second implementation, and every
//! service under a block of either kind.

use spireyerba::limits::{work_length, GRAMMAR_BLOCK_MAX, GRAMMAR_SHEET_MAX};
use spireyerba::Refusal::*;
use spireyerba::{services, Body, Grammar, Heard, MarkedGrammar, Refusal, Rule};
use spireyerba_tests::compare::conversions::{GRAMMAR_TO_BLOCK, GRAMMAR_TO_SHEET};
use spireyerba_tests::compare::{over_seeds, Tally};
use spireyerba_tests::refusal::{GRAMMAR_BLOCK, GRAMMAR_SHEET};
use spireyerba_tests::seeded::damage::{blocks, repeated_rule, sheets};
use spireyerba_tests::seeded::grammars::{grammar, Size};
use spireyerba_tests::seeded::offices::marked;
use spireyerba_tests::seeded::parsable::{heard_case, AMBIGUOUS, SPARSE};
use spireyerba_tests::{grammar, heard};

/// G with marks 0 and 1.
const SHEET: [u32; 15] = [1, 1, 2, 0, 0, 1, 0, 0, 0, 1, 0, 0, 0, 0, 1];
const BLOCK: [u8; 9] = [0x40, 0x40, 0x40, 0x40, 0x00, 0x08, 0x80, 0x00, 0x10];

/// The answer of both implementations to a sheet.
fn packed(sheet: &[u32]) -> Result<Vec<u8>, Refusal> {
    GRAMMAR_TO_BLOCK.answer(&[], sheet)
}

/// The answer of both implementations to a block.
fn unpacked(block: &[u8]) -> Result<Vec<u32>, Refusal> {
    GRAMMAR_TO_SHEET.answer(&[], block)
}

#[test]
fn g_with_marks() {
    assert_eq!(packed(&SHEET), Ok(BLOCK.to_vec()));
    assert_eq!(unpacked(&BLOCK), Ok(SHEET.to_vec()));
    let marked = MarkedGrammar::from_sheet(&SHEET).expect("an accepted sheet");
    assert_eq!(marked.marks, [false, true]);
    assert_eq!(marked.shown(&[0, 1, 0, 1, 1]), [0, 0]);
    assert_eq!((marked.to_sheet(), marked.to_block()), (SHEET.to_vec(), Ok(BLOCK.to_vec())));
    assert_eq!(MarkedGrammar::from_block(&BLOCK), Ok(marked));
}

#[test]
fn refusals_of_a_sheet() {
    let known: [(&[u32], Refusal); 7] = [
        (&[1, 1, 1, 1, 0, 0, 0, 0, 2], SheetValue),
        (&[1, 1, 1, 1, 0, 0, 0, 0, 0, 0], SheetCount),
        // alike but for the mark; a mark out of range comes first
        (&[1, 1, 2, 1, 0, 0, 0, 0, 0, 1, 0, 9, 0, 0, 1], GrammarRepeat),
        (&[1, 1, 2, 1, 0, 0, 0, 0, 0, 1, 0, 9, 0, 0, 2], SheetValue),
        // a word rule's fifth number stays 0
        (&[1, 1, 1, 1, 0, 0, 0, 1, 0], SheetValue),
        (&[1, 1, 3, 1, 0, 0, 0, 0, 0, 1, 0, 9, 0, 0, 1], SheetCount),
        (&[1, 1, 0], GrammarRange),
    ];
    for (sheet, refusal) in known {
        assert_eq!(packed(sheet), Err(refusal), "{sheet:?}");
    }
    assert_eq!(packed(&[1, 1, 1, 1, 0, 0, 0, 0, 1]), Ok(vec![0x40, 0x40, 0x40, 0x30, 0x00, 0x02]));
    assert_eq!(packed(&[1, 1, 1, 1, 0, 0, 0, 0]), Ok(vec![0x10, 0x40, 0x40, 0x30, 0x00, 0x00]));
}

#[test]
fn refusals_of_a_block() {
    for kind in (0..16).filter(|kind| ![1, 4].contains(kind)) {
        let mut other = BLOCK;
        other[0] = kind << 4;
        assert_eq!(unpacked(&other), Err(GrammarKind), "kind {kind}");
    }
    assert_eq!(unpacked(&BLOCK[..8]), Err(GrammarEnd));
    assert_eq!(unpacked(&[&BLOCK[..], &[0]].concat()), Err(GrammarFill));
    // one rule that is marked; as a block without marks, its mark is a fill bit that is not zero
    assert_eq!(unpacked(&[0x40, 0x40, 0x40, 0x30, 0x00, 0x02]), Ok(vec![1, 1, 1, 1, 0, 0, 0, 0, 1]));
    assert_eq!(unpacked(&[0x10, 0x40, 0x40, 0x30, 0x00, 0x02]), Err(GrammarFill));
}

#[test]
fn the_greatest_sizes() {
    let body = |number| Body::Pair(number / 32, 31);
    let rules = (0..256).map(|number| Rule { head: number % 32, weight: 65_535, body: body(number) }).collect();
    let grammar = Grammar { symbols: 32, words: 200, rules };
    let marked = MarkedGrammar { grammar, marks: vec![true; 256] };
    let block = marked.to_block().expect("an accepted grammar");
    assert_eq!((block.len(), marked.to_sheet().len()), (GRAMMAR_BLOCK_MAX, GRAMMAR_SHEET_MAX));
    assert_eq!(unpacked(&block), Ok(marked.to_sheet()));
    assert_eq!(packed(&marked.to_sheet()), Ok(block));
}

#[test]
fn sheets_beside_the_second_implementation() {
    let mut tally = Tally::default();
    over_seeds(0..400, |rng| {
        let size = Size::any(rng);
        let grammar = grammar(rng, size);
        let sheet = marked(rng, &grammar).to_sheet();
        let mut inputs = sheets(rng, &sheet, 60);
        let repeated = repeated_rule(rng, &grammar);
        inputs.push(marked(rng, &repeated).to_sheet());
        GRAMMAR_TO_BLOCK.compare_each(rng, &mut tally, &[], &inputs);
    });
    tally.demand(20_000, &[GRAMMAR_SHEET.as_slice(), &[OutputShort]].concat());
}

#[test]
fn blocks_beside_the_second_implementation() {
    let mut tally = Tally::default();
    over_seeds(1_000..1_300, |rng| {
        let size = Size::any(rng);
        let grammar = grammar(rng, size);
        let block = grammar::pack_marked(&marked(rng, &grammar));
        let mut inputs = blocks(rng, &block, 300);
        let repeated = repeated_rule(rng, &grammar);
        inputs.push(grammar::pack_marked(&marked(rng, &repeated)));
        GRAMMAR_TO_SHEET.compare_each(rng, &mut tally, &[], &inputs);
    });
    tally.demand(20_000, &[GRAMMAR_BLOCK.as_slice(), &[OutputShort]].concat());
}

/// What the services answer and write under a grammar's block, over noise that is the same for every grammar.
fn answers(grammar: &[u8], symbols: u32, heard: &Heard, block: &[u8]) -> Vec<(Result<usize, Refusal>, Vec<u8>)> {
    let mut work = vec![7; work_length(symbols as usize, heard.longest(), 9)];
    let mut all = Vec::new();
    let mut call = |service: &mut dyn FnMut(&mut [u8]) -> Result<usize, Refusal>| {
        let mut out = vec![0xa5; 1_000];
        all.push((service(&mut out), out));
    };
    call(&mut |out| services::listing(grammar, block, 9, &mut work, out));
    call(&mut |out| services::panel_listing(grammar, block, 9, &mut work, out));
    call(&mut |out| services::specimen(grammar, 3, out).map(usize::from));
    call(&mut |out| services::next_phrase(grammar, 3, false, out).map(usize::from));
    let readings = all[0].1.clone();
    let length = readings.len().min(60);
    for end in 1..=length {
        all.push((services::check(grammar, block, &readings[..end]).map(|()| 0), Vec::new()));
    }
    if let Heard::Slots(utterance) = heard {
        let mut out = vec![0xa5; 1_000];
        all.push((services::utterance_to_block(grammar, &utterance.to_sheet(), &mut out), out));
        let mut sheet = vec![7; 1_000];
        let length = services::utterance_to_sheet(grammar, block, &mut sheet);
        all.push((length, sheet.iter().flat_map(|number| number.to_le_bytes()).collect()));
    }
    all
}

/// Kind 1 reads as unmarked, and marks change no service's answer.
#[test]
fn every_service_takes_either_kind() {
    let mut passed = 0;
    over_seeds(2_000..2_400, |rng| {
        let (grammar, heard) = heard_case(rng, &[&AMBIGUOUS, &SPARSE]);
        let block = heard::pack(&grammar, &heard);
        let plain = answers(&grammar::pack(&grammar), grammar.symbols, &heard, &block);
        let with_marks = grammar::pack_marked(&marked(rng, &grammar));
        assert_eq!(answers(&with_marks, grammar.symbols, &heard, &block), plain, "{grammar:?} {heard:?}");
        passed += plain.iter().filter(|(answer, out)| out.is_empty() && answer.is_ok()).count();
    });
    assert!(passed > 100, "{passed} readings passed the check");
}
