//! The texts of grammars with marks, on random offices and random marks: what is written is read again and packed to the same
//! block, and trees and readings are those of the rules as they are written.

use spireyerba::text::{parse_reading, reading_text, NamedGrammar};
use spireyerba::{Grammar, Item, MarkedGrammar, Office, Part, Refusal, Tree, Utterance};
use spireyerba_tests::compare::over_seeds;
use spireyerba_tests::grammar::pack_marked;
use spireyerba_tests::office::convert;
use spireyerba_tests::seeded::grammars::{grammar, Size};
use spireyerba_tests::seeded::offices::{generous, marked, office};
use spireyerba_tests::seeded::rng::Rng;
use spireyerba_tests::seeded::utterances::{slot, Costs};

const SIZES: [Size; 3] = [Size::Small, Size::Middle, Size::Greatest];

/// A grammar with names for its symbols and words.
fn named(marked: MarkedGrammar) -> NamedGrammar {
    let names = |letter: &str, count| (0..count).map(|number| format!("{letter}{number}")).collect();
    let (symbols, words) = (names("N", marked.grammar.symbols), names("word ", marked.grammar.words));
    NamedGrammar::marked(marked, symbols, words)
}

/// Holds a grammar to what its text and its block are read as.
fn expect_text(named: &NamedGrammar) {
    let text = named.to_text();
    let read = NamedGrammar::parse(&text).unwrap_or_else(|error| panic!("{error}\n{text}"));
    assert_eq!(&read, named, "{text}");
    let block = read.to_block().expect("an accepted grammar");
    assert_eq!(named.to_block().as_ref(), Ok(&block));
    let unpacked = NamedGrammar::from_block(&block).expect("a block of the library's");
    assert_eq!((&unpacked.grammar, unpacked.marks()), (&named.grammar, named.marks()));
    assert_eq!(unpacked.office(), named.office());
    assert_eq!(NamedGrammar::parse(&unpacked.to_text()), Ok(unpacked));
}

#[test]
fn offices() {
    let (mut read, mut too_large, mut shared) = (0, 0, 0);
    over_seeds(0..600, |rng| {
        let size = rng.pick(&SIZES);
        let office = office(rng, size);
        match convert(&office) {
            Ok(marked) => {
                let named = named(marked.clone());
                assert_eq!((marked.to_office().as_ref(), named.office()), (Some(&office), Some(&office)));
                assert_eq!(named.to_block(), Ok(pack_marked(&marked)));
                expect_text(&named);
                read += 1;
            }
            Err(refusal) => {
                assert_eq!(refusal, Refusal::OfficeSize);
                // where equal ends of bodies have one symbol it may fit
                match NamedGrammar::parse(&as_written(&office)) {
                    Ok(named) => {
                        assert_eq!(
                            (named.own_symbols(), named.own_rules()),
                            (office.symbols, office.rules.len() as u32)
                        );
                        shared += 1;
                    }
                    Err(error) => {
                        assert_eq!(error.refusal(), Some(Refusal::OfficeSize), "{error}");
                        too_large += 1;
                    }
                }
            }
        }
    });
    assert!(read > 200 && too_large > 50, "{read} read, {too_large} too large, {shared} with ends shared");
}

/// The text of an office grammar, a rule a line behind two lists.
fn as_written(office: &Office) -> String {
    let list = |letter: &str, count| (0..count).map(|number| format!(" {letter}{number}")).collect::<String>();
    let words: String = (0..office.words).map(|word| format!(" \"w{word}\"")).collect();
    let mut text = format!("symbols{}\nwords{words}\n", list("N", office.symbols));
    for rule in &office.rules {
        let items = rule.items.iter().map(|item| match item {
            Item::Symbol(symbol) => format!(" N{symbol}"),
            Item::Word(word) => format!(" \"w{word}\""),
        });
        text += &format!("N{} ->{} [{}]\n", rule.head, items.collect::<String>(), rule.weight);
    }
    text
}

#[test]
fn any_marks() {
    let mut offices = 0;
    over_seeds(1_000..1_300, |rng| {
        let size = rng.pick(&SIZES);
        let grammar = grammar(rng, size);
        let named = named(marked(rng, &grammar));
        expect_text(&named);
        offices += u32::from(named.office().is_some());
    });
    assert!(offices < 150, "{offices} of 300 are offices'");
}

/// Without marks a block stays one of its kind.
#[test]
fn both_kinds_without_marks() {
    over_seeds(2_000..2_100, |rng| {
        let grammar = grammar(rng, Size::Small);
        let unmarked = MarkedGrammar { marks: vec![false; grammar.rules.len()], grammar: grammar.clone() };
        for block in [grammar.to_block(), unmarked.to_block()] {
            let block = block.expect("an accepted grammar");
            let text = NamedGrammar::from_block(&block).expect("a block of the library's").to_text();
            assert_eq!(NamedGrammar::parse(&text).expect(&text).to_block(), Ok(block), "{text}");
        }
    });
}

fn heard(rng: &mut Rng, words: u32) -> Utterance {
    let known: Vec<u32> = (0..words).collect();
    let (slots, costs) = (rng.within(1..=7), Costs::any(rng));
    Utterance { slots: (0..slots).map(|_| slot(rng, &known, words as usize, costs)).collect() }
}

/// A node has the items of its rule below it, in their order, words and what has the symbols for heads.
fn expect_written(grammar: &Grammar, office: &Office, tree: &Tree) {
    let items = &office.rules[tree.rule as usize].items;
    assert_eq!(items.len(), tree.parts.len(), "{tree:?}");
    for (item, part) in items.iter().zip(&tree.parts) {
        match part {
            Part::Word { word, .. } => assert_eq!(*item, Item::Word(*word)),
            Part::Tree(part) => {
                assert_eq!(*item, Item::Symbol(grammar.rules[part.rule as usize].head));
                expect_written(grammar, office, part);
            }
        }
    }
}

/// The words of a tree from the left, each with its number.
fn words_of(tree: &Tree, words: &mut Vec<u32>) {
    for part in &tree.parts {
        match part {
            Part::Word { word, number } => {
                assert_eq!(*number, words.len());
                words.push(*word);
            }
            Part::Tree(tree) => words_of(tree, words),
        }
    }
}

#[test]
fn readings_in_the_office_s_terms() {
    let mut read = 0;
    over_seeds(3_000..3_400, |rng| {
        let office = generous(rng);
        let Ok(marked) = office.to_grammar() else { return };
        let named = named(marked);
        let utterance = heard(rng, office.words);
        for reading in named.grammar.list(&utterance, 40).expect("a list") {
            let tree = named.tree(&reading).expect("a walk");
            expect_written(&named.grammar, &office, &tree);
            let mut words = Vec::new();
            words_of(&tree, &mut words);
            assert!(words.into_iter().eq(named.words_of(&reading)));
            let written = named.written_reading(&reading);
            assert_eq!(written, named.shown(&reading));
            assert!(written.walk.iter().all(|rule| (*rule as usize) < office.rules.len()));
            let parsed = parse_reading(&reading_text(&written)).expect("a text");
            // the nodes of helpers may be left out, or some of them, or none
            let mut some = reading.clone();
            some.walk.retain(|rule| !named.is_marked(*rule) || rule % 2 == 0);
            for written in [&parsed, &some, &reading] {
                assert_eq!(named.whole_reading(written), reading);
            }
            read += 1;
        }
    });
    assert!(read > 1_000, "{read} readings");
}

/// Numbers that are no walk go to the library as they are, and it refuses them.
#[test]
fn damaged_readings_are_refused() {
    let mut refused = 0;
    over_seeds(4_000..4_200, |rng| {
        let office = generous(rng);
        let Ok(marked) = office.to_grammar() else { return };
        let named = named(marked);
        let utterance = heard(rng, office.words);
        for reading in named.grammar.list(&utterance, 4).expect("a list") {
            let mut written = named.written_reading(&reading);
            let at = rng.below(written.walk.len());
            match rng.within(0..=3) {
                0 => drop(written.walk.remove(at)),
                1 => written.walk.insert(at, rng.within(0..=300)),
                2 => written.walk[at] = rng.within(0..=office.rules.len() as u32 - 1),
                _ => written.walk.truncate(at),
            }
            let whole = named.whole_reading(&written);
            let passes = named.grammar.check(&utterance, &whole);
            assert!(passes.is_err() || named.shown(&whole) == named.shown(&written), "{written:?}");
            refused += u32::from(passes.is_err());
        }
    });
    assert!(refused > 100, "{refused} refused");
}
