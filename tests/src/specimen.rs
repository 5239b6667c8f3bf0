//! The specimen (document 01, "The services"; document 02, N7): of the word strings of a wanted length that a grammar
//! derives, the least when compared word number by word number from the left.
//!
//! [`least`] builds it in the order of that comparison: at each place the least word after which the rest can still be
//! derived. [`derived`] is the plain definition, for few words: of all strings in ascending order those that are derived.
//!
//! The next phrase (document 02, N9): [`least_above`] keeps as many words of the string as it can before a greater one.

use crate::grammar;
use spireyerba::limits::{MAX_PHRASE, MAX_SLOTS};
use spireyerba::{Body, Grammar, Refusal};

const START: usize = 0;

/// Writes the specimen, a word number a byte, and answers whether there is one.
pub fn specimen(grammar: &[u8], length: u32, out: &mut [u8]) -> Result<bool, Refusal> {
    let grammar = asked(grammar, MAX_SLOTS, length, out)?;
    Ok(written(least(&grammar, length as usize), out))
}

/// Writes the specimen in a first call, in a later one the least phrase above the string that the output holds, and answers
/// whether there is one.
pub fn next_phrase(grammar: &[u8], length: u32, first: bool, out: &mut [u8]) -> Result<bool, Refusal> {
    let grammar = asked(grammar, MAX_PHRASE, length, out)?;
    let held: Vec<u32> = out.iter().take(length as usize).map(|&byte| byte.into()).collect();
    let found = if first { least(&grammar, held.len()) } else { least_above(&grammar, &held) };
    Ok(written(found, out))
}

/// The grammar, or the refusal.
fn asked(grammar: &[u8], longest: u32, length: u32, out: &[u8]) -> Result<Grammar, Refusal> {
    let grammar = grammar::from_block(grammar)?;
    if !(1..=longest).contains(&length) {
        return Err(Refusal::SpecimenLength);
    }
    if out.len() < length as usize {
        return Err(Refusal::SpecimenOutput);
    }
    Ok(grammar)
}

fn written(string: Option<Vec<u32>>, out: &mut [u8]) -> bool {
    let Some(words) = string else { return false };
    for (byte, word) in out.iter_mut().zip(words) {
        *byte = word as u8;
    }
    true
}

/// The least string of so many words that the grammar derives, if it derives any.
pub fn least(grammar: &Grammar, length: usize) -> Option<Vec<u32>> {
    least_after(grammar, length, Vec::new())
}

/// The same of those that begin with these words.
fn least_after(grammar: &Grammar, length: usize, mut words: Vec<u32>) -> Option<Vec<u32>> {
    let mut parts = Parts::of_any_words(grammar, length);
    words.iter().enumerate().for_each(|(place, &word)| parts.fix(place, word));
    for place in words.len()..length {
        let word = parts.words(place).min()?;
        parts.fix(place, word);
        words.push(word);
    }
    Some(words)
}

/// The least string above another of its length that the grammar derives, if it derives any. The other's words, before the
/// first that differs, are kept as far as a greater word can follow.
pub fn least_above(grammar: &Grammar, string: &[u32]) -> Option<Vec<u32>> {
    let mut parts = Parts::of_any_words(grammar, string.len());
    let mut start = None;
    for (place, &word) in string.iter().enumerate() {
        let greater = parts.words(place).filter(|&other| other > word).min();
        start = greater.map(|greater| [&string[..place], &[greater]].concat()).or(start);
        parts.fix(place, word);
    }
    least_after(grammar, string.len(), start?)
}

/// The parts, a head over adjoining places, that the strings of one length can have of which the first words are fixed and
/// all others are free. A set of places is kept as bits.
struct Parts<'a> {
    grammar: &'a Grammar,
    length: usize,
    /// The word at each place, where it is fixed.
    words: Vec<Option<u32>>,
    /// Where parts end, by the place where they begin and their head.
    ends: Vec<Vec<u32>>,
}

impl<'a> Parts<'a> {
    fn of_any_words(grammar: &'a Grammar, length: usize) -> Self {
        let mut parts = Self { grammar, length, words: vec![None; length], ends: no_ends(grammar, length) };
        (0..length).rev().for_each(|from| parts.find(from));
        parts
    }

    /// Fixes the word at a place. Parts that begin after it stay.
    fn fix(&mut self, place: usize, word: u32) {
        self.words[place] = Some(word);
        (0..=place).rev().for_each(|from| self.find(from));
    }

    /// Finds where the parts end that begin at a place, once this is known of the places after it.
    fn find(&mut self, from: usize) {
        self.ends[from].fill(0);
        while self.find_more(from) {}
    }

    /// Tries each rule once; whether an end was new.
    fn find_more(&mut self, from: usize) -> bool {
        let (grammar, before) = (self.grammar, self.ends[from].clone());
        for rule in &grammar.rules {
            let ends = match rule.body {
                Body::Word(word) => u32::from(self.words[from].is_none_or(|fixed| fixed == word)) << (from + 1),
                Body::Pair(first, second) => places(self.ends[from][first as usize])
                    .fold(0, |ends, split| ends | self.ends[split][second as usize]),
            };
            self.ends[from][rule.head as usize] |= ends;
        }
        self.ends[from] != before
    }

    /// The words that a string can have at a place, where all words before it are fixed.
    fn words(&self, place: usize) -> impl Iterator<Item = u32> + '_ {
        let used = self.used(place);
        self.grammar.rules.iter().filter_map(move |rule| match rule.body {
            Body::Word(word) => (used[place][rule.head as usize] >> (place + 1) & 1 == 1).then_some(word),
            Body::Pair(..) => None,
        })
    }

    /// Where parts end that stand in a derivation of a whole string, of those that begin at places up to `last`.
    fn used(&self, last: usize) -> Vec<Vec<u32>> {
        let mut used = no_ends(self.grammar, self.length);
        used[0][START] = self.ends[0][START] & 1 << self.length;
        for from in 0..=last {
            while self.use_more(&mut used, from) {}
        }
        used
    }

    /// Tries each rule once on the parts that begin at a place; whether another such part is used.
    fn use_more(&self, used: &mut [Vec<u32>], from: usize) -> bool {
        let before = used[from].clone();
        for rule in &self.grammar.rules {
            let Body::Pair(first, second) = rule.body else { continue };
            for split in places(self.ends[from][first as usize]) {
                let ends = used[from][rule.head as usize] & self.ends[split][second as usize];
                if ends != 0 {
                    used[from][first as usize] |= 1 << split;
                    used[split][second as usize] |= ends;
                }
            }
        }
        used[from] != before
    }
}

/// No part at any place, the end of the string among them, with any head.
fn no_ends(grammar: &Grammar, length: usize) -> Vec<Vec<u32>> {
    vec![vec![0; grammar.symbols as usize]; length + 1]
}

/// The places in a set.
fn places(mut set: u32) -> impl Iterator<Item = usize> {
    std::iter::from_fn(move || {
        let least = (set != 0).then(|| set.trailing_zeros() as usize)?;
        set &= set - 1;
        Some(least)
    })
}

/// All strings of so many words that the grammar derives, in ascending order.
pub fn derived(grammar: &Grammar, length: usize) -> impl Iterator<Item = Vec<u32>> + '_ {
    tuples(length, grammar.words).filter(|words| derives(grammar, words))
}

/// The same strings, a word number a byte.
pub fn derived_bytes(grammar: &Grammar, length: usize) -> impl Iterator<Item = Vec<u8>> + '_ {
    derived(grammar, length).map(|words| words.into_iter().map(|word| word as u8).collect())
}

/// All lists of `length` numbers below `limit`, in ascending order when compared from the left.
pub fn tuples(length: usize, limit: u32) -> impl Iterator<Item = Vec<u32>> {
    let tuple = move |number: u32| (0..length as u32).rev().map(|place| number / limit.pow(place) % limit).collect();
    (0..limit.pow(length as u32)).map(tuple)
}

/// Whether the grammar derives a word string: the symbols of each span, from short to long.
pub fn derives(grammar: &Grammar, words: &[u32]) -> bool {
    let slots = words.len();
    let mut heads = vec![vec![0u32; slots + 1]; slots];
    for length in 1..=slots {
        for from in 0..=slots - length {
            let to = from + length;
            for rule in &grammar.rules {
                let holds = match rule.body {
                    Body::Word(word) => length == 1 && words[from] == word,
                    Body::Pair(first, second) => (from + 1..to)
                        .any(|split| heads[from][split] >> first & 1 == 1 && heads[split][to] >> second & 1 == 1),
                };
                heads[from][to] |= u32::from(holds) << rule.head;
            }
        }
    }
    slots > 0 && heads[0][slots] & 1 == 1
}
