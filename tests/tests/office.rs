//! Rules as offices write them (document 02, N5): the known sheets on the library and on the second implementation, the two beside
//! each other on seeded sheets, valid and damaged, and derivations beside those that are made from the items themselves.

use spireyerba::limits::{work_length, GRAMMAR_BLOCK_MAX};
use spireyerba::Refusal::*;
use spireyerba::{services, Grammar, Item, MarkedGrammar, Office, OfficeRule, Refusal, Utterance};
use spireyerba_tests::compare::conversions::{Conversion, Service};
use spireyerba_tests::compare::{over_seeds, Tally};
use spireyerba_tests::conversions;
use spireyerba_tests::heard::Offers;
use spireyerba_tests::office::{convert, derivations, from_sheet};
use spireyerba_tests::seeded::damage::sheets;
use spireyerba_tests::seeded::grammars::Size;
use spireyerba_tests::seeded::offices::{generous, office, repeated};
use spireyerba_tests::seeded::raw;
use spireyerba_tests::seeded::utterances::{slot, Costs};
use spireyerba_tests::{grammar, seeded};

const OFFICE_TO_BLOCK: Conversion<u32, u8> = Conversion {
    library: |_, sheet, out| services::office_to_block(sheet, out),
    second: |_, sheet, out| conversions::office_to_block(sheet, out),
    longest: GRAMMAR_BLOCK_MAX,
};

/// Both implementations.
const BOTH: [Service<u32, u8>; 2] = [OFFICE_TO_BLOCK.library, OFFICE_TO_BLOCK.second];

/// The main example: words in longer bodies, one of them in several, and bodies of three and four items.
const DESK: [u32; 35] =
    [2, 4, 4, 0, 5, 3, 1, 0, 0, 1, 1, 2, 1, 1, 1, 1, 1, 1, 2, 2, 1, 3, 1, 1, 0, 7, 4, 1, 0, 0, 1, 1, 2, 1, 2];
const DESK_BLOCK: [u8; 41] = [
    0x42, 0x41, 0x01, 0x60, 0x00, 0x05, 0x24, 0x44, 0x00, 0x05, 0x04, 0x00, 0x09, 0x58, 0x00, 0x00, 0x72, 0x74, 0x80,
    0x00, 0x0c, 0xc0, 0x00, 0x29, 0x00, 0x00, 0x04, 0xf5, 0x00, 0x00, 0xf6, 0x00, 0x00, 0x67, 0x00, 0x00, 0x18, 0xa0,
    0x00, 0x00, 0xce,
];

/// The answer and the output of each implementation, over noise.
fn expect(sheet: &[u32], room: usize, result: Result<&[u8], Refusal>) {
    for service in BOTH {
        let mut out = vec![0xa5; room];
        assert_eq!(service(&[], sheet, &mut out), result.map(<[u8]>::len), "{sheet:?}");
        let written = result.unwrap_or(&[]);
        assert_eq!(out, [written, &vec![0xa5; room - written.len()]].concat(), "{sheet:?}");
    }
}

#[test]
fn the_main_example() {
    expect(&DESK, 41, Ok(&DESK_BLOCK));
    expect(&DESK, 60, Ok(&DESK_BLOCK));
    expect(&DESK, 40, Err(OutputShort));
    let marked = MarkedGrammar::from_block(&DESK_BLOCK).expect("an accepted block");
    let rules = [
        [0, 0, 5, 2, 4],
        [1, 1, 1, 1, 0],
        [0, 1, 2, 5, 6],
        [0, 0, 7, 2, 7],
        [1, 2, 0, 0, 0],
        [1, 3, 0, 2, 0],
        [0, 4, 0, 1, 3],
        [1, 5, 0, 3, 0],
        [1, 6, 0, 1, 0],
        [0, 7, 0, 1, 8],
        [0, 8, 0, 3, 3],
    ];
    assert_eq!(marked.grammar.to_sheet(), [[9, 4, 11].as_slice(), rules.as_flattened()].concat());
    assert_eq!(marked.marks, [[false; 4].as_slice(), &[true; 7]].concat());
}

#[test]
fn refusals_at_their_numbers() {
    let known: [(&[u32], Refusal); 22] = [
        (&[], SheetCount),
        (&[1], SheetCount),
        (&[1, 1], SheetCount),
        (&[1, 1, 1], SheetCount),
        (&[0], GrammarRange),
        (&[1, 201], GrammarRange),
        (&[1, 1, 257], GrammarRange),
        (&[1, 1, 1, 1], GrammarSymbol),
        (&[1, 1, 1, 0, 65_536], SheetValue),
        (&[1, 1, 1, 0, 0, 0], ItemCount),
        (&[1, 1, 1, 0, 0, 7], ItemCount),
        (&[1, 1, 1, 0, 0, 1, 0], ItemAlone),
        (&[1, 1, 1, 0, 0, 1, 2], SheetValue),
        (&[1, 1, 1, 0, 0, 1, 1, 1], GrammarWord),
        (&[1, 1, 1, 0, 0, 2, 0, 1], GrammarSymbol),
        (&[1, 1, 1, 0, 0, 2, 0, 0], SheetCount),
        (&[1, 1, 1, 0, 0, 1, 1, 0, 9], SheetCount),
        (&[1, 1, 2, 0, 0, 1, 1, 0, 0, 7, 1, 1, 0], GrammarRepeat),
        (&[1, 1, 2, 0, 0, 1, 1, 0, 0, 7, 1, 1, 0, 5], GrammarRepeat),
        // another weight is no other rule, and a number out of range comes before
        (&[1, 1, 2, 0, 0, 2, 1, 0, 0, 0, 0, 7, 2, 1, 0, 0, 0], GrammarRepeat),
        (&[1, 1, 2, 0, 0, 2, 1, 0, 0, 0, 0, 7, 2, 1, 0, 0, 1], GrammarSymbol),
        (&[2, 1, 2, 0, 0, 1, 1, 0, 1, 7, 1, 0, 0], ItemAlone),
    ];
    for (sheet, refusal) in known {
        expect(sheet, 9, Err(refusal));
    }
    expect(&[1, 1, 1, 0, 0, 1, 1, 0], 9, Ok(&[0x40, 0x40, 0x40, 0x30, 0x00, 0x00]));
    // alike but for the head, and alike but for the order of items
    assert!(from_sheet(&[2, 1, 2, 0, 0, 1, 1, 0, 1, 0, 1, 1, 0]).is_ok());
    assert!(from_sheet(&[1, 1, 2, 0, 0, 2, 1, 0, 0, 0, 0, 0, 2, 0, 0, 1, 0]).is_ok());
}

/// So many rules of six items of one symbol and one word each, of which the bits of their numbers say what the items are.
fn six_items(rules: u32) -> Office {
    let item = |bit| if bit == 1 { Item::Word(0) } else { Item::Symbol(0) };
    let body = |number: u32| (0..6).map(|at| item(number >> at & 1)).collect();
    let rules = (0..rules).map(|number| OfficeRule { head: 0, weight: number, items: body(number) }).collect();
    Office { symbols: 1, words: 1, rules }
}

/// Seven such rules have one helper for the word and 28 in chains; the eighth takes three more than there is room for.
#[test]
fn a_result_that_is_too_large() {
    let seven = six_items(7).to_grammar().expect("a result within the limits");
    assert_eq!((seven.grammar.symbols, seven.grammar.rules.len()), (30, 36));
    assert_eq!(convert(&six_items(7)), Ok(seven));
    let eight = six_items(8).to_sheet();
    expect(&eight, 0, Err(OfficeSize));
    expect(&[eight.as_slice(), &[0]].concat(), 0, Err(SheetCount));
}

/// 256 rules of 2 symbols make no helper, and 255 with one word make the 256th rule; another rule is too many.
#[test]
fn a_result_of_256_rules() {
    let rule = |number: u32| {
        let symbol = |at: u32| Item::Symbol(number >> (3 * at) & 7);
        OfficeRule { head: number & 7, weight: 0, items: vec![symbol(1), symbol(2)] }
    };
    let with_word = OfficeRule { head: 0, weight: 0, items: vec![Item::Word(0), Item::Symbol(0)] };
    let office = |plain: u32| {
        let rules = (0..plain).map(rule).chain([with_word.clone()]).collect();
        Office { symbols: 8, words: 1, rules }
    };
    let marked = office(254).to_grammar().expect("a result within the limits");
    assert_eq!((marked.grammar.symbols, marked.grammar.rules.len()), (9, 256));
    assert!(!marked.marks[254] && marked.marks[255]);
    expect(&office(255).to_sheet(), 0, Err(OfficeSize));
}

#[test]
fn sheets_beside_the_second_implementation() {
    let mut tally = Tally::default();
    over_seeds(0..400, |rng| {
        let size = match rng.below(40) {
            0 => Size::Greatest,
            1..=9 => Size::Middle,
            _ => Size::Small,
        };
        let office = office(rng, size);
        let mut inputs = sheets(rng, &office.to_sheet(), 60);
        inputs.push(repeated(rng, &office).to_sheet());
        inputs.extend((0..50).map(|_| raw::office_sheet(rng)));
        inputs.extend((0..4).map(|length| rng.noise(length)));
        for sheet in inputs {
            OFFICE_TO_BLOCK.compare(rng, &mut tally, &[], &sheet);
        }
    });
    let refusals = [GrammarRange, GrammarSymbol, GrammarWord, GrammarRepeat, SheetCount, SheetValue, OutputShort];
    tally.demand(20_000, &[refusals.as_slice(), &[ItemCount, ItemAlone, OfficeSize]].concat());
}

/// The values of the crate `spireyerba` are what the second implementation makes.
#[test]
fn values() {
    over_seeds(1_000..1_200, |rng| {
        let office = office(rng, Size::Small);
        let expected = convert(&office);
        assert_eq!(office.to_grammar(), expected, "{office:?}");
        assert_eq!(office.to_block(), expected.map(|marked| grammar::pack_marked(&marked)), "{office:?}");
        assert_eq!(from_sheet(&office.to_sheet()), Ok(office));
    });
}

/// Weight and rule numbers of each reading of an utterance that the library lists, helpers left out, by weight and rule numbers;
/// nothing if there may be more than it can list.
fn listed(marked: &MarkedGrammar, heard: &[u8], longest: usize) -> Option<Vec<(u32, Vec<u32>)>> {
    let block = marked.to_block().expect("an accepted grammar");
    let mut work = vec![0; work_length(marked.grammar.symbols as usize, longest, 256)];
    let mut out = vec![0; 256 * 73];
    let found = services::listing(&block, heard, 256, &mut work, &mut out).expect("a listing");
    let length = spireyerba::limits::reading_length(longest, marked.grammar.rules.len());
    let readings = out[..found * length].chunks_exact(length).map(|reading| {
        let reading = spireyerba::Reading::from_block(&block, heard, reading).expect("a reading that passes");
        (reading.weight, marked.shown(&reading.walk))
    });
    let mut readings: Vec<_> = readings.collect();
    readings.sort();
    (found < 256).then_some(readings)
}

/// The readings of the converted grammar without helpers' nodes are the office's own derivations, one for one.
#[test]
fn derivations_match_one_to_one() {
    let (mut compared, mut derived) = (0, 0);
    over_seeds(2_000..3_500, |rng| {
        let office = generous(rng);
        let marked = office.to_grammar().expect("a result within the limits");
        let known: Vec<u32> = (0..office.words).collect();
        let costs = Costs::any(rng);
        let slots = (0..rng.within(1..=6)).map(|_| slot(rng, &known, 3, costs)).collect();
        let utterance = Utterance { slots };
        let block = utterance.to_block(&grammar::pack(&marked.grammar)).expect("an accepted utterance");
        let own = derivations(&office, &Offers::of_slots(&utterance));
        if let Some(listed) = listed(&marked, &block, utterance.slots.len()) {
            assert_eq!(listed, own, "{office:?} {utterance:?}");
            compared += 1;
            derived += listed.len();
        }
    });
    assert!(compared > 1_000 && derived > 3_000, "{compared} lists of {derived} readings");
}

/// A word graph's derivations match too.
#[test]
fn derivations_of_graphs_match_one_to_one() {
    let mut derived = 0;
    over_seeds(4_000..6_000, |rng| {
        let office = generous(rng);
        let marked = office.to_grammar().expect("a result within the limits");
        let graph = seeded::graphs::graph(rng, Size::Small, office.words);
        let own = derivations(&office, &Offers::of_graph(&graph));
        let readings = marked.grammar.list(&graph, 256).expect("a listing");
        if readings.len() < 256 {
            let shown = readings.iter().map(|found| (found.weight, marked.shown(&found.walk)));
            let mut shown: Vec<_> = shown.collect();
            shown.sort();
            assert_eq!(shown, own, "{office:?} {graph:?}");
            derived += own.len();
        }
    });
    assert!(derived > 500, "{derived} readings");
}

/// The grammar of a block of kind 4 is that without marks, for both crates of Rust.
#[test]
fn marks_are_passed_over() {
    let plain = MarkedGrammar::from_block(&DESK_BLOCK).map(|marked| marked.grammar);
    assert_eq!(Grammar::from_block(&DESK_BLOCK), plain);
    assert_eq!(grammar::from_block(&DESK_BLOCK), plain);
}
