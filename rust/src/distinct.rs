//! Each sentence once: of readings with the same words the first.

use crate::{Grammar, Reading};
use std::collections::HashMap;

/// Keeps the first reading of each string of words, in the order in which readings are handed in, and counts the others: those
/// of other trees or, in a word graph, on other paths.
///
/// ```
/// use spireyerba::{text::NamedGrammar, Distinct};
///
/// let grammar = NamedGrammar::parse("A -> A A [1] | \"x\"")?.grammar;
/// let heard = spireyerba::Utterance { slots: vec![vec![spireyerba::Candidate { word: 0, cost: 2 }]; 4] };
/// let mut sentences = Distinct::new(8);
/// sentences.walk(&grammar, grammar.open(&heard)?);
/// let in_short: Vec<_> = sentences.found().iter().map(|found| (found.first.weight, found.others)).collect();
/// // four words, grouped in five ways
/// assert_eq!(in_short, [(11, 4)]);
/// # Ok::<(), spireyerba::Error>(())
/// ```
#[derive(Clone, Debug, Default)]
pub struct Distinct {
    most: usize,
    found: Vec<Sentence>,
    /// The number of each sentence, by its words.
    numbers: HashMap<Vec<u32>, usize>,
}

/// A string of words that was read.
#[derive(Clone, Debug, PartialEq, Eq)]
pub struct Sentence {
    /// Its first reading.
    pub first: Reading,
    /// How many more readings have the same words.
    pub others: u32,
}

impl Distinct {
    /// Keeps at most so many sentences.
    pub fn new(most: usize) -> Self {
        Self { most, ..Self::default() }
    }

    /// Takes the next reading under a grammar. Answers whether it is kept: no reading before it has the same words, and there is
    /// room.
    pub fn take(&mut self, grammar: &Grammar, next: Reading) -> bool {
        let words: Vec<u32> = grammar.words_of(&next).collect();
        match self.numbers.get(&words) {
            Some(number) => self.found[*number].others += 1,
            None if self.found.len() < self.most => {
                self.numbers.insert(words, self.found.len());
                self.found.push(Sentence { first: next, others: 0 });
                return true;
            }
            None => {}
        }
        false
    }

    /// Takes all readings that are left of a list.
    pub fn walk(&mut self, grammar: &Grammar, readings: impl IntoIterator<Item = Reading>) {
        readings.into_iter().for_each(|next| {
            self.take(grammar, next);
        });
    }

    /// What was kept.
    pub fn found(&self) -> &[Sentence] {
        &self.found
    }

    /// Forgets all, so that it may be used for another list.
    pub fn clear(&mut self) {
        self.found.clear();
        self.numbers.clear();
    }
}

impl Grammar {
    /// The words of a reading in their order, by number.
    pub fn words_of<'a>(&'a self, reading: &'a Reading) -> impl Iterator<Item = u32> + 'a {
        reading.walk.iter().filter_map(|&rule| match self.rules[rule as usize].body {
            crate::Body::Word(word) => Some(word),
            crate::Body::Pair(..) => None,
        })
    }
}
