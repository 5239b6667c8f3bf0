//! Texts with notation, on random rules: their derivations, with weights, trees and translations, are those of the notation taken as it
//! stands, and those of the same rules written out by hand.

use spireyerba::text::NamedGrammar;
use spireyerba::{Candidate, Error, Refusal, Tree, Utterance};
use spireyerba_tests::compare::over_seeds;
use spireyerba_tests::notation::{
    alone, any_rule, least, repeats_nothing, rules_of, text, translation_of, word_rules, Derivations, Rule, WORDS,
};
use spireyerba_tests::seeded::rng::Rng;
use std::collections::BTreeMap;

/// A list that is not cut off has fewer readings than this.
const WANTED: u32 = 256;

/// An utterance of words that are heard for certain.
fn heard(words: &[u32]) -> Utterance {
    Utterance { slots: words.iter().map(|&word| vec![Candidate { word, cost: 0 }]).collect() }
}

/// All trees of some words, sorted, if there are fewer than are wanted.
fn listed(named: &NamedGrammar, words: &[u32]) -> Option<Vec<(u32, Tree)>> {
    let readings = named.grammar.list(&heard(words), WANTED).expect("an accepted grammar");
    let trees = readings.iter().map(|reading| (reading.weight, named.tree(reading).expect("a walk")));
    (readings.len() < WANTED as usize).then(|| trees.collect())
}

fn sum(tree: &Tree) -> u32 {
    let below = tree.parts.iter().map(|part| match part {
        spireyerba::Part::Word { .. } => 0,
        spireyerba::Part::Tree(tree) => sum(tree),
    });
    tree.weight + below.sum::<u32>()
}

/// The numbers that the words of a text have in its grammar, in which they are numbered as they are met.
fn words_of(named: &NamedGrammar, words: &[u32]) -> Option<Vec<u32>> {
    let number = |word: &u32| named.words.iter().position(|name| *name == format!("w{word}")).map(|at| at as u32);
    words.iter().map(number).collect()
}

/// A tree in the numbers of its text in place of those of its names, as something that can be sorted.
fn renamed(named: &NamedGrammar, tree: &Tree) -> String {
    let parts = tree.parts.iter().zip(&tree.elements).map(|(part, element)| match part {
        spireyerba::Part::Word { word, number } => format!("{element}:{}@{number}", named.word(*word)),
        spireyerba::Part::Tree(tree) => format!("{element}:{}", renamed(named, tree)),
    });
    let parts: Vec<String> = parts.collect();
    format!("({} {} {} {})", tree.rule, named.symbol(tree.head), tree.weight, parts.join(" "))
}

/// The same of a tree whose numbers are those of the names.
fn as_named(tree: &Tree) -> String {
    let parts = tree.parts.iter().zip(&tree.elements).map(|(part, element)| match part {
        spireyerba::Part::Word { word, number } => format!("{element}:w{word}@{number}"),
        spireyerba::Part::Tree(tree) => format!("{element}:{}", as_named(tree)),
    });
    let parts: Vec<String> = parts.collect();
    format!("({} S{} {} {})", tree.rule, tree.head, tree.weight, parts.join(" "))
}

/// Some strings that the grammar derives, and some that it may not, in the numbers of the text's names.
fn strings(rng: &mut Rng, named: &NamedGrammar) -> Vec<Vec<u32>> {
    let one = |rng: &mut Rng| {
        let length = rng.within(1..=5);
        (0..length).map(|_| rng.within(0..=WORDS - 1)).collect()
    };
    let number = |word: &u32| named.word(*word)[1..].parse().expect("a number");
    let phrases = (1..=5).flat_map(|length| named.grammar.phrases(length).expect("a length").take(8));
    let derived = phrases.map(|words| words.iter().map(number).collect());
    derived.chain((0..4).map(|_| one(rng))).collect()
}

/// So many texts are accepted, and the trees that are compared in all are at least so many.
const TEXTS: u64 = 2_000;
const TREES: usize = 40_000;

#[test]
fn derivations_are_those_of_the_notation() {
    let (mut trees, mut written_out, [mut tried, mut refused]) = (0, 0, [0, 0]);
    over_seeds(0..TEXTS, |rng| {
        let rules = rules_of(rng, |rules| {
            tried += 1;
            let error = NamedGrammar::parse(&text(rules)).err();
            refused += usize::from(error.is_some());
            error.is_none_or(|error| {
                // two alike, or too much room
                let known = [Refusal::GrammarRepeat, Refusal::OfficeSize];
                assert!(error.refusal().is_some_and(|refusal| known.contains(&refusal)), "{error}\n{}", text(rules));
                false
            })
        });
        let text = text(&rules);
        let named = NamedGrammar::parse(&text).expect("rules in another order");
        assert_eq!(NamedGrammar::parse(&named.to_text()).as_ref(), Ok(&named), "{text}");
        written_out += usize::from(named.is_written_out());
        for words in strings(rng, &named) {
            trees += compared(&named, &rules, &words, &text);
        }
    });
    assert!(trees >= TREES && refused * 3 < tried, "{trees} trees; {refused} of {tried} rules were refused");
    assert!(written_out * 3 > TEXTS as usize * 2, "{written_out} texts with notation");
}

/// Compares the derivations of words by a text with those of its rules taken as they stand; answers how many there are.
fn compared(named: &NamedGrammar, rules: &[Rule], words: &[u32], text: &str) -> usize {
    let Some(listed) = words_of(named, words).and_then(|numbers| listed(named, &numbers)) else { return 0 };
    let start: u32 = named.symbol(0)[1..].parse().expect("a number");
    let found = Derivations { rules, words }.of_symbol(start, [0, words.len()]);
    let sorted = |mut list: Vec<(String, u32, String)>| {
        list.sort();
        list
    };
    let of_list = listed.iter().map(|(weight, tree)| (renamed(named, tree), *weight, named.translation(tree)));
    let of_notation = found.iter().map(|tree| (as_named(tree), sum(tree), translation_of(rules, tree)));
    assert_eq!(sorted(of_list.collect()), sorted(of_notation.collect()), "{text}\n{words:?}");
    found.len()
}

/// What cannot be derived from is refused, for what it is, and nothing else is: a rule of which every part may be left out, one that
/// repeats what may be left out, and one that is its own head alone.
#[test]
fn rules_without_a_meaning_are_refused() {
    let mut counts = BTreeMap::<&str, u32>::new();
    over_seeds(0..5_000, |rng| {
        let mut rules = word_rules(rng);
        let rule = any_rule(rng);
        let expected = match &rule.body {
            body if repeats_nothing(body) => "what is repeated may be left out",
            body if least(body) == 0 => "every part of this may be left out",
            body if alone(body).contains(&rule.head) => "go round in a circle",
            _ => "",
        };
        rules.push(rule);
        let text = text(&rules);
        match (NamedGrammar::parse(&text), expected) {
            (Ok(_), "") => *counts.entry("accepted").or_default() += 1,
            // two alike, or too much room, which may be found before
            (Err(error), _) if error.refusal().is_some() => {}
            (read, expected) => {
                *counts.entry(expected).or_default() += 1;
                let message = read.map(drop).expect_err(&text).to_string();
                assert!(message.contains(expected), "{expected}: {message}\n{text}");
            }
        }
    });
    assert!(counts.len() == 4 && counts.values().all(|count| *count > 100), "{counts:?}");
}

/// Texts with notation, and the same written out by hand: a rule for each way to take a body, and symbols for what is repeated.
const BY_HAND: [(&str, &str); 8] = [
    ("A -> \"a\" B? [3]\nB -> \"b\" [1]", "A -> \"a\" [3] | \"a\" B [3]\nB -> \"b\" [1]"),
    (
        "A -> B \"fire\"?120 C [2]\nB -> \"b\"\nC -> \"c\" [4]",
        "A -> B \"fire\" C [2] | B C [122]\nB -> \"b\"\nC -> \"c\" [4]",
    ),
    (
        "A -> B [3]\nB -> C [4] | \"b\" B\nC -> \"c\" [5]",
        "A -> \"c\" [12] | \"b\" B [3]\nB -> \"c\" [9] | \"b\" B\nC -> \"c\" [5]",
    ),
    ("A -> \"x\" ( \"a\" | \"b\" \"c\" [2] ) [1]", "A -> \"x\" \"a\" [1] | \"x\" \"b\" \"c\" [3]"),
    (
        "A -> D+ [1]\nD -> \"a\" | \"b\" [7]",
        "A -> \"a\" [1] | \"b\" [8] | D M [1]\nM -> \"a\" | \"b\" [7] | D M\nD -> \"a\" | \"b\" [7]",
    ),
    ("A -> \"x\" D*\nD -> \"a\" [2]", "A -> \"x\" | \"x\" M\nM -> \"a\" [2] | D M\nD -> \"a\" [2]"),
    (
        "A -> (B \"a\")+ (B | \"c\")? [1]\nB -> \"b\"",
        "A -> M [1] | M B [1] | M \"c\" [1]\nM -> B \"a\" | B \"a\" M\nB -> \"b\"",
    ),
    (
        "A -> \"a\" \"b\" \"a\" \"b\" \"a\" \"b\" \"a\"?1",
        "A -> \"a\" \"b\" \"a\" \"b\" R [1] | \"a\" \"b\" \"a\" \"b\" S\nR -> \"a\" \"b\"\nS -> \"a\" \"b\" \"a\"",
    ),
];

/// Every string of a length with the weights of its derivations.
fn language(named: &NamedGrammar, length: u32) -> BTreeMap<String, Vec<u32>> {
    let strings = named.grammar.phrases(length).expect("a length");
    let weights = |words: &[u32]| {
        let listed = listed(named, words).expect("few derivations");
        listed.into_iter().map(|(weight, _)| weight).collect()
    };
    strings.map(|words| (named.string(&words), weights(&words))).collect()
}

#[test]
fn languages_are_those_of_rules_written_out_by_hand() {
    let mut strings = 0;
    for (text, by_hand) in BY_HAND {
        let [text_read, by_hand_read] = [text, by_hand].map(|text| NamedGrammar::parse(text).expect(text));
        for length in 1..=6 {
            let [found, expected] = [&text_read, &by_hand_read].map(|named| language(named, length));
            assert_eq!(found, expected, "{text}");
            strings += found.len();
        }
    }
    assert!(strings > 100, "{strings}");
}

#[test]
fn a_word_longer_than_the_list_is_read_too() -> Result<(), Error> {
    let named = NamedGrammar::parse("A -> \"x\"+")?;
    let heard = heard(&[0; 24]);
    let readings = named.grammar.list(&heard, 2)?;
    assert_eq!(readings.len(), 1);
    let tree = named.tree(&readings[0]).expect("a walk");
    assert_eq!((tree.rule, tree.parts.len(), tree.elements), (0, 24, vec![0; 24]));
    Ok(())
}
