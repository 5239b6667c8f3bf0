//! Seeded grammars as offices write them, and marks.

use super::grammars::{Size, Weights};
use super::rng::Rng;
use spireyerba::limits::MAX_ITEMS;
use spireyerba::{Grammar, Item, MarkedGrammar, Office, OfficeRule};

/// A grammar with any marks.
pub fn marked(rng: &mut Rng, grammar: &Grammar) -> MarkedGrammar {
    let marks = grammar.rules.iter().map(|_| rng.once_in(2)).collect();
    MarkedGrammar { grammar: grammar.clone(), marks }
}

/// An office grammar, at times one whose result is too large; small ones have few words, so that bodies share them.
pub fn office(rng: &mut Rng, size: Size) -> Office {
    let (symbols, words, rules) = match size {
        Size::Small => (rng.within(1..=4), rng.within(1..=3), rng.within(1..=6)),
        Size::Middle => (rng.within(1..=32), rng.pick(&[1, 2, 5, 17, 128, 200]), rng.within(1..=20)),
        Size::Greatest => (rng.within(1..=16), 200, rng.within(200..=256)),
    };
    let longest = if size == Size::Greatest { 2 } else { MAX_ITEMS };
    let weights = Weights::any(rng);
    let mut office = Office { symbols, words, rules: Vec::new() };
    for _ in 0..rules {
        let (head, items) = (rng.within(0..=symbols - 1), body(rng, &office, longest));
        if !office.rules.iter().any(|rule| rule.head == head && rule.items == items) {
            office.rules.push(OfficeRule { head, weight: weights.draw(rng), items });
        }
    }
    office
}

/// A small one that derives much: each symbol has a rule of one word, and the bodies of the others have up to six items.
pub fn generous(rng: &mut Rng) -> Office {
    let (symbols, words) = (rng.within(1..=2), rng.within(1..=2));
    let weights = Weights::any(rng);
    let mut office = Office { symbols, words, rules: Vec::new() };
    for head in 0..symbols {
        let items = vec![Item::Word(rng.within(0..=words - 1))];
        office.rules.push(OfficeRule { head, weight: weights.draw(rng), items });
    }
    for _ in 0..rng.within(2..=5) {
        let (head, items) = (rng.within(0..=symbols - 1), body(rng, &office, MAX_ITEMS));
        if !office.rules.iter().any(|rule| rule.head == head && rule.items == items) {
            office.rules.push(OfficeRule { head, weight: weights.draw(rng), items });
        }
    }
    office
}

/// One word, or as many items as are wanted.
fn body(rng: &mut Rng, office: &Office, longest: u32) -> Vec<Item> {
    // of two items at most, so that there are many rules and few helpers: symbols
    let with_words = longest > 2;
    let count = rng.within(1..=longest);
    let mut item = || match count == 1 || with_words && rng.once_in(3) {
        true => Item::Word(rng.within(0..=office.words - 1)),
        false => Item::Symbol(rng.within(0..=office.symbols - 1)),
    };
    (0..count).map(|_| item()).collect()
}

/// The office grammar with head and items of one rule put in the place of another's, whose weight stays.
pub fn repeated(rng: &mut Rng, office: &Office) -> Office {
    let mut damaged = office.clone();
    let (from, to) = (rng.below(office.rules.len()), rng.below(office.rules.len()));
    let weight = damaged.rules[to].weight;
    damaged.rules[to] = OfficeRule { weight, ..damaged.rules[from].clone() };
    damaged
}
