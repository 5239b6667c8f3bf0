//! Seeded grammars for the specimen and for the next phrase.

use super::grammars::{grammar, with_rules, Size};
use super::rng::Rng;
use spireyerba::limits::MAX_WORDS;
use spireyerba::{Body, Grammar, Rule};

/// Symbol k joins two of symbol k + 1, or one of k + 1 with one of k + 2, and the last symbols have words: few lengths
/// are derivable.
fn ladder(rng: &mut Rng) -> Grammar {
    let symbols = rng.within(3..=7);
    let rule = |head, body| Rule { head, weight: 0, body };
    let mut rules: Vec<Rule> = (0..symbols - 2)
        .map(|head| rule(head, Body::Pair(head + 1, head + rng.within(1..=2))))
        .chain((symbols - 2..symbols).map(|head| rule(head, Body::Word(head))))
        .collect();
    rng.shuffle(&mut rules);
    Grammar { symbols, words: symbols, rules }
}

/// Each symbol but the last joins the last with itself or with the next, on the left or on the right or both.
fn chain(rng: &mut Rng) -> Grammar {
    let symbols = rng.within(2..=5);
    let mut grammar = with_rules(rng, symbols, 6, 0, 2 * symbols);
    let last = symbols - 1;
    for head in 0..last {
        let rest = head + rng.within(0..=1);
        let mut bodies = vec![Body::Pair(last, rest), Body::Pair(rest, last)];
        rng.shuffle(&mut bodies);
        bodies.dedup();
        bodies.truncate(rng.pick(&[1, 2]));
        grammar.rules.extend(bodies.into_iter().map(|body| Rule { head, weight: 0, body }));
    }
    rng.shuffle(&mut grammar.rules);
    grammar
}

/// The grammar with other words in the place of its own.
fn with_words(mut grammar: Grammar, words: &[u32]) -> Grammar {
    grammar.words = MAX_WORDS;
    for rule in &mut grammar.rules {
        if let Body::Word(word) = &mut rule.body {
            *word = words[*word as usize];
        }
    }
    grammar
}

/// All words are the same but for at most two, one less and one greater: strings of one length are equal or differ late.
fn tied(rng: &mut Rng) -> Grammar {
    let (symbols, pairs) = (rng.within(1..=8), rng.within(1..=20));
    let mut grammar = with_words(with_rules(rng, symbols, 1, pairs, symbols), &[77]);
    for word in [76, 78] {
        if rng.once_in(2) {
            let rule = Rule { head: rng.within(0..=symbols - 1), weight: 0, body: Body::Word(word) };
            grammar.rules.insert(rng.below(grammar.rules.len() + 1), rule);
        }
    }
    grammar
}

/// Words on both sides of where a byte with a sign turns negative.
fn wide_words(rng: &mut Rng) -> Grammar {
    let (symbols, pairs) = (rng.within(1..=6), rng.within(1..=12));
    with_words(with_rules(rng, symbols, 6, pairs, 8), &[0, 1, 127, 128, 129, 199])
}

/// Grammars with unreachable and unproductive symbols among them, with only word rules and with only pair rules.
pub fn any_grammar(rng: &mut Rng) -> Grammar {
    match rng.below(18) {
        0 => with_rules(rng, 32, 200, 150, 106),
        1 => grammar(rng, Size::Greatest),
        2 => ladder(rng),
        3 => with_rules(rng, 3, 5, 0, 6),
        4 => with_rules(rng, 3, 5, 6, 0),
        5 => grammar(rng, Size::Middle),
        6 | 7 => with_rules(rng, 8, 9, 10, 5),
        8 | 9 => chain(rng),
        10 | 11 => tied(rng),
        12 | 13 => wide_words(rng),
        _ => grammar(rng, Size::Small),
    }
}

/// A grammar with the length up to which all strings can be tried: few words and strings of up to six, or all words and strings
/// of one or two.
pub fn of_few_strings(rng: &mut Rng) -> (Grammar, usize) {
    let (words, longest) = if rng.once_in(10) { (MAX_WORDS, 2) } else { (rng.within(1..=3), 6) };
    let (symbols, pairs, word_rules) = (rng.within(1..=4), rng.within(0..=6), rng.within(1..=6));
    (with_rules(rng, symbols, words, pairs, word_rules), longest)
}
