//! The stack that include/spireyerba.h promises to suffice: every service at its greatest sizes on a thread with no more.
//! A stack that is too short ends the whole run.

use spireyerba::limits::{work_length, GRAMMAR_BLOCK_MAX, GRAMMAR_SHEET_MAX, GRAPH_BLOCK_MAX, GRAPH_READING_BLOCK_MAX};
use spireyerba::limits::{MARGINS_MAX, PANEL_MAX_READINGS, PANEL_OUTPUT_MAX, PANEL_WORK_MAX};
use spireyerba::limits::{MAX_READINGS, MAX_RULES, READING_BLOCK_MAX, UTTERANCE_BLOCK_MAX, UTTERANCE_SHEET_MAX};
use spireyerba::services::{self, Next, Place};
use spireyerba::{Body, Candidate, Edge, Grammar, Graph, Item, MarkedGrammar, Office, OfficeRule, Refusal};
use spireyerba::{Rule, Utterance};
use std::thread;

const STACK: usize = 64 * 1024;
const READINGS: usize = MAX_READINGS as usize;
const RULES: usize = MAX_RULES as usize;

/// Runs a call on a thread of its own and answers what it does.
fn on_small_stack<T: Send>(call: impl FnOnce() -> T + Send) -> T {
    thread::scope(|scope| {
        let thread = thread::Builder::new().stack_size(STACK).spawn_scoped(scope, call);
        thread.expect("a thread with a small stack").join().expect("the call returns")
    })
}

/// 32 symbols, 200 words and 256 rules. Head 0 joins one word with the rest of the utterance, which stands on one side, so
/// that the search goes as deep as it can.
fn grammar(first: u32, second: u32) -> Grammar {
    let mut bodies = vec![(0, Body::Pair(first, second))];
    bodies.extend((0..14).map(|number| (number % 2, Body::Word(number / 2))));
    bodies.extend((0..241).map(|number| (2 + number % 30, Body::Pair(number / 30, 31))));
    let rule = |(number, (head, body))| Rule { head, weight: 7 * number as u32, body };
    Grammar { symbols: 32, words: 200, rules: bodies.into_iter().enumerate().map(rule).collect() }
}

/// So many slots that offer seven words each, at costs that can fall far.
fn utterance(slots: u32) -> Utterance {
    let slot = |slot| (0..7).map(|word| Candidate { word, cost: 500 + slot * word }).collect();
    Utterance { slots: (0..slots).map(slot).collect() }
}

fn expect_answers(grammar: &Grammar, utterance: &Utterance) {
    let grammar_block = grammar.to_block().expect("an accepted grammar");
    let block = utterance.to_block(&grammar_block).expect("an accepted utterance");
    let (grammar_sheet, sheet) = (grammar.to_sheet(), utterance.to_sheet());
    let (mut numbers, mut bytes) = ([0; GRAMMAR_SHEET_MAX], [0; GRAMMAR_BLOCK_MAX]);
    let answer = on_small_stack(|| services::grammar_to_block(&grammar_sheet, &mut bytes));
    assert_eq!(answer, Ok(grammar_block.len()));
    let answer = on_small_stack(|| services::grammar_to_sheet(&grammar_block, &mut numbers));
    assert_eq!(answer, Ok(grammar_sheet.len()));
    let marked = MarkedGrammar { grammar: grammar.clone(), marks: vec![true; 256] }.to_sheet();
    let answer = on_small_stack(|| services::grammar_to_block(&marked, &mut bytes));
    let length = answer.expect("an accepted sheet");
    assert_eq!(on_small_stack(|| services::grammar_to_sheet(&bytes[..length], &mut numbers)), Ok(GRAMMAR_SHEET_MAX));
    let answer = on_small_stack(|| services::utterance_to_block(&grammar_block, &sheet, &mut bytes));
    assert_eq!(answer, Ok(UTTERANCE_BLOCK_MAX));
    let answer = on_small_stack(|| services::utterance_to_sheet(&grammar_block, &block, &mut numbers));
    assert_eq!(answer, Ok(UTTERANCE_SHEET_MAX));
    assert_eq!(on_small_stack(|| services::specimen(&grammar_block, 24, &mut bytes)), Ok(true));
    assert_eq!(bytes[..24], [0; 24]);
    assert_eq!(on_small_stack(|| services::next_phrase(&grammar_block, 6, true, &mut bytes)), Ok(true));
    assert_eq!(on_small_stack(|| services::next_phrase(&grammar_block, 6, false, &mut bytes)), Ok(true));
    assert_eq!(bytes[..6], [0, 0, 0, 0, 0, 1]);
    expect_list(&grammar_block, &block, READING_BLOCK_MAX);
    expect_one_by_one(&grammar_block, &block, READING_BLOCK_MAX);
    expect_ranges(&grammar_block, &block);
    expect_margins(&grammar_block, &block);
}

/// Six words in each slot that the first reading does not use, each of which would bring another.
fn expect_margins(grammar: &[u8], block: &[u8]) {
    let (mut work, mut out) = (vec![7; work_length(32, 24, 1)], vec![7; MARGINS_MAX]);
    let answer = on_small_stack(|| services::word_margins(grammar, block, &mut work, &mut out));
    assert_eq!(answer, Ok(6 * 24));
}

/// Costs that are known exactly: the first reading stands, at its own weight.
fn expect_ranges(grammar: &[u8], block: &[u8]) {
    let mut work = vec![7; work_length(32, 24, 1)];
    let (mut least, mut greatest) = (0, 0);
    let answer = on_small_stack(|| services::cost_ranges(grammar, block, block, &mut work, &mut least, &mut greatest));
    assert_eq!((answer, least == greatest), (Ok(services::FirstReading::Stands), true));
}

/// As many readings as can be wanted, of so many bytes each, which all pass the check; the chance of each is 1 / 1,024 to the
/// power 47.
fn expect_list(grammar: &[u8], heard: &[u8], length: usize) {
    let (mut work, mut out) = (vec![7; work_length(32, 24, READINGS)], vec![0; READINGS * length]);
    let answer = on_small_stack(|| services::listing(grammar, heard, MAX_READINGS, &mut work, &mut out));
    assert_eq!(answer, Ok(READINGS));
    let mut chance = 0.0;
    for reading in out.chunks_exact(length) {
        assert_eq!(on_small_stack(|| services::check(grammar, heard, reading)), Ok(()));
        let answer = on_small_stack(|| services::chance(grammar, heard, reading, &[1; RULES], &mut chance));
        assert_eq!((answer, chance), (Ok(()), f64::from_bits(0x2290_0000_0000_0000)));
    }
}

/// As many readings handed out one by one, the same as the listing's.
fn expect_one_by_one(grammar: &[u8], heard: &[u8], length: usize) {
    let (mut work, mut list) = (vec![7; work_length(32, 24, READINGS)], vec![0; READINGS * length]);
    assert_eq!(services::listing(grammar, heard, MAX_READINGS, &mut work, &mut list), Ok(READINGS));
    let (mut place, mut out) = (Place::default(), vec![0; length]);
    assert_eq!(on_small_stack(|| services::open(grammar, heard, &mut place, &mut work)), Ok(()));
    for listed in list.chunks_exact(length) {
        let answer = on_small_stack(|| services::next(grammar, heard, &mut place, &mut work, &mut out));
        assert_eq!((answer, &out[..]), (Ok(Next::Reading), listed));
    }
    assert_eq!(on_small_stack(|| services::next(grammar, heard, &mut place, &mut work, &mut out)), Ok(Next::Full));
    // a table that was altered: the search may go any way
    place.handed = 7;
    work.iter_mut().step_by(3).for_each(|number| *number ^= 0x155);
    let answer = on_small_stack(|| services::next(grammar, heard, &mut place, &mut work, &mut out));
    assert!(matches!(answer, Ok(Next::Reading | Next::NoMore) | Err(Refusal::AlteredWalk)), "{answer:?}");
}

/// 25 places with four words over each step, so that every path has 24 edges.
fn graph() -> Graph {
    let edge = |number| Edge { from: number / 4, to: number / 4 + 1, word: number % 4, cost: number };
    Graph { places: 25, edges: (0..96).map(edge).collect() }
}

#[test]
fn listing_and_check_of_the_greatest_graph() {
    for (first, second) in [(0, 1), (1, 0)] {
        let grammar = grammar(first, second).to_block().expect("an accepted grammar");
        let block = graph().to_block(&grammar).expect("an accepted graph");
        assert_eq!(block.len(), GRAPH_BLOCK_MAX);
        expect_list(&grammar, &block, GRAPH_READING_BLOCK_MAX);
        expect_one_by_one(&grammar, &block, GRAPH_READING_BLOCK_MAX);
    }
}

/// 256 rules of so many items each.
fn office(items: u32) -> Office {
    let item = |number: u32, at| match number >> at & 1 {
        0 => Item::Symbol(0),
        _ => Item::Word(number % 200),
    };
    let body = |number| (0..items).map(|at| item(number, at)).collect();
    let rule = |number| OfficeRule { head: number % 8, weight: number, items: body(number / 8) };
    Office { symbols: 8, words: 200, rules: (0..256).map(rule).collect() }
}

#[test]
fn office_sheets_of_the_greatest_sizes() {
    let pairs = (0..256).map(|number| OfficeRule {
        head: number % 8,
        weight: number,
        items: vec![Item::Symbol(number / 8 % 8), Item::Symbol(number / 64)],
    });
    let pairs = Office { symbols: 8, words: 200, rules: pairs.collect() }.to_sheet();
    let mut bytes = [0; GRAMMAR_BLOCK_MAX];
    assert!(on_small_stack(|| services::office_to_block(&pairs, &mut bytes)).is_ok());
    let long = office(6).to_sheet();
    assert_eq!(on_small_stack(|| services::office_to_block(&long, &mut bytes)), Err(Refusal::OfficeSize));
}

#[test]
fn every_service_at_its_greatest_sizes() {
    for (first, second) in [(0, 1), (1, 0)] {
        expect_answers(&grammar(first, second), &utterance(24));
    }
}

#[test]
fn the_panel_at_its_greatest_sizes() {
    for (first, second) in [(0, 1), (1, 0)] {
        let grammar = grammar(first, second).to_block().expect("an accepted grammar");
        let block = utterance(12).to_block(&grammar).expect("an accepted utterance");
        let (mut work, mut out) = (vec![7; PANEL_WORK_MAX], vec![7; PANEL_OUTPUT_MAX]);
        let list = || services::panel_listing(&grammar, &block, PANEL_MAX_READINGS, &mut work, &mut out);
        assert_eq!(on_small_stack(list), Ok(PANEL_MAX_READINGS as usize));
    }
}
