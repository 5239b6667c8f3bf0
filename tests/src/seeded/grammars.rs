//! Seeded grammars.

use super::rng::Rng;
use spireyerba::limits::MAX_WEIGHT;
use spireyerba::{Body, Grammar, Rule};
use std::collections::HashSet;

/// How large a seeded grammar or utterance is.
#[derive(Clone, Copy, Debug, PartialEq, Eq)]
pub enum Size {
    Small,
    Middle,
    Greatest,
}

impl Size {
    /// Mostly small, so that there is time for every way to damage what has this size.
    pub fn any(rng: &mut Rng) -> Self {
        match rng.below(40) {
            0 => Self::Greatest,
            1..=6 => Self::Middle,
            _ => Self::Small,
        }
    }
}

/// How weights and costs are drawn.
#[derive(Clone, Copy, Debug)]
pub enum Weights {
    Zero,
    /// Few different ones, so that ties are many.
    Tied,
    Extreme,
    UpTo(u32),
}

impl Weights {
    pub fn any(rng: &mut Rng) -> Self {
        rng.pick(&[Self::Zero, Self::Tied, Self::Extreme, Self::UpTo(MAX_WEIGHT)])
    }

    pub fn draw(self, rng: &mut Rng) -> u32 {
        match self {
            Self::Zero => 0,
            Self::Tied => rng.within(0..=2),
            Self::Extreme => rng.pick(&[0, 1, 65_534, 65_535]),
            Self::UpTo(most) => rng.within(0..=most),
        }
    }
}

/// A grammar whose numbers stand at the ends of the widths as often as between them.
pub fn grammar(rng: &mut Rng, size: Size) -> Grammar {
    let (symbols, words, rules) = match size {
        Size::Small => (rng.within(1..=4), rng.within(1..=5), rng.within(1..=9)),
        Size::Middle => (
            rng.pick(&[1, 2, 3, 4, 5, 7, 8, 9, 15, 16, 17, 31, 32]),
            rng.pick(&[1, 2, 3, 4, 5, 16, 17, 127, 128, 129, 199, 200]),
            rng.within(1..=40),
        ),
        Size::Greatest => (32, 200, 256),
    };
    let pairs = rules * rng.pick(&[0, 1, 1, 2]) / 2;
    with_rules(rng, symbols, words, pairs, rules - pairs)
}

/// A grammar with so many pair rules and word rules, or as many as there are, no two of one kind, head and body.
pub fn with_rules(rng: &mut Rng, symbols: u32, words: u32, pairs: u32, word_rules: u32) -> Grammar {
    let weights = Weights::any(rng);
    with_weights(rng, symbols, words, pairs, word_rules, weights)
}

/// The same with weights drawn as is said.
pub fn with_weights(rng: &mut Rng, symbols: u32, words: u32, pairs: u32, word_rules: u32, weights: Weights) -> Grammar {
    let mut bodies = HashSet::new();
    let mut rules = Vec::new();
    let (pairs, word_rules) = (pairs.min(symbols.pow(3)), word_rules.min(symbols * words));
    while rules.len() < (pairs + word_rules) as usize {
        let is_word = rules.len() >= pairs as usize;
        let (head, body) = headed_body(rng, symbols, words, is_word);
        if bodies.insert((head, body)) {
            rules.push(Rule { head, weight: weights.draw(rng), body });
        }
    }
    rng.shuffle(&mut rules);
    Grammar { symbols, words, rules }
}

fn headed_body(rng: &mut Rng, symbols: u32, words: u32, is_word: bool) -> (u32, Body) {
    let mut symbol = || rng.within(0..=symbols - 1);
    let (head, first, second) = (symbol(), symbol(), symbol());
    (head, if is_word { Body::Word(rng.within(0..=words - 1)) } else { Body::Pair(first, second) })
}
