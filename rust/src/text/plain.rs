//! Utterances in plain lines, as programs write them: short words of letters and digits, costs, and marks between them.
//!
//! Such a line is read in one pass. Anything else, and whatever is wrong, is left to the tokens, which know what to say about it.

use super::utterance::Slots;
use crate::limits::{MAX_CANDIDATES, MAX_WEIGHT};
use crate::Candidate;

/// A plain word: its bytes as a number, of which the first is the lowest.
type Key = u64;
/// A plain word has at most so many bytes.
const LONGEST: usize = size_of::<Key>();
/// What stands in the table where there is no word. No word begins with this byte.
const FREE: Key = 0;
/// The table has so many places, more than twice as many as a grammar has words.
const PLACES: usize = 512;

/// The plain words of a grammar.
#[derive(Clone, Debug)]
pub(super) struct PlainWords {
    /// Each word with its number, at the place that its key gives or at the next one that was free.
    table: Box<[(Key, u32); PLACES]>,
}

impl PlainWords {
    pub(super) fn new(words: &[String]) -> Self {
        let mut table = Box::new([(FREE, 0); PLACES]);
        // a grammar that is too large is never listed
        for (word, number) in words.iter().zip(0..).take(PLACES / 2) {
            if let Some((key, [])) = word_of(word.as_bytes()) {
                let mut place = place_of(key);
                while table[place].0 != FREE {
                    place = (place + 1) % PLACES;
                }
                table[place] = (key, number);
            }
        }
        Self { table }
    }

    fn number(&self, key: Key) -> Option<u32> {
        let mut place = place_of(key);
        loop {
            match self.table[place] {
                (known, number) if known == key => return Some(number),
                (FREE, _) => return None,
                _ => place = (place + 1) % PLACES,
            }
        }
    }

    /// Reads the slots of a plain line; nothing if it is another.
    pub(super) fn read(&self, line: &[u8], slots: &mut Slots) -> Option<()> {
        let mut rest = after_blanks(line);
        while !rest.is_empty() {
            slots.begin_slot().ok()?;
            loop {
                rest = self.candidate(rest, slots)?;
                match rest {
                    [b'|', after @ ..] => rest = after_blanks(after),
                    [b';', after @ ..] => {
                        rest = after_blanks(after);
                        break;
                    }
                    [] => break,
                    _ => return None,
                }
            }
        }
        slots.finish().ok()
    }

    /// Reads a word and its cost; answers what follows the blanks behind them.
    fn candidate<'a>(&self, text: &'a [u8], slots: &mut Slots) -> Option<&'a [u8]> {
        let (key, rest) = before_blank(text)?;
        let (cost, rest) = cost_of(rest)?;
        let word = self.number(key)?;
        if slots.candidates() == MAX_CANDIDATES || slots.has(word) {
            return None;
        }
        slots.add(Candidate { word, cost });
        Some(after_blanks(rest))
    }
}

fn place_of(key: Key) -> usize {
    (key.wrapping_mul(0x9e37_79b9_7f4a_7c15) >> (Key::BITS - PLACES.ilog2())) as usize
}

fn after_blanks(mut text: &[u8]) -> &[u8] {
    while let [b' ', rest @ ..] = text {
        text = rest;
    }
    text
}

/// What stands before the first blank of a text, if that could be a plain word, and what stands behind the blank. Whether it is
/// one is said by the table.
fn before_blank(text: &[u8]) -> Option<(Key, &[u8])> {
    let window = match text.first_chunk() {
        Some(bytes) => Key::from_le_bytes(*bytes),
        None => {
            let mut bytes = [0; LONGEST];
            bytes[..text.len()].copy_from_slice(text);
            Key::from_le_bytes(bytes)
        }
    };
    let length = first_blank(window);
    let [b' ', rest @ ..] = text.get(length..)? else { return None };
    let key = if length == LONGEST { window } else { window & !(Key::MAX << (8 * length)) };
    (key != FREE).then_some((key, rest))
}

/// The place of the first blank among the bytes of a number, the lowest first; their count if none is one.
fn first_blank(window: Key) -> usize {
    const EACH: Key = Key::MAX / 0xff;
    // where a blank stands there are zeros now: of the bytes with a borrow from them the lowest is the first zero
    let without = window ^ (EACH * b' ' as Key);
    let zeros = without.wrapping_sub(EACH) & !without & (EACH << 7);
    zeros.trailing_zeros() as usize / 8
}

/// The plain word at the front of a text, and the rest.
fn word_of(text: &[u8]) -> Option<(Key, &[u8])> {
    let (mut key, mut rest, mut length) = (0, text, 0);
    while let [byte @ (b'a'..=b'z' | b'A'..=b'Z' | b'0'..=b'9' | b'_'), after @ ..] = rest {
        if length == LONGEST {
            return None;
        }
        key |= Key::from(*byte) << (8 * length);
        (rest, length) = (after, length + 1);
    }
    (length > 0).then_some((key, rest))
}

/// The cost at the front of a text, and the rest, which does not begin with what could be part of it.
fn cost_of(text: &[u8]) -> Option<(u32, &[u8])> {
    let (mut cost, mut rest) = (0, text);
    while let [digit @ b'0'..=b'9', after @ ..] = rest {
        cost = cost * 10 + u32::from(digit - b'0');
        rest = after;
        if cost > MAX_WEIGHT {
            return None;
        }
    }
    let is_whole = rest.len() < text.len() && matches!(rest, [] | [b' ' | b'|' | b';', ..]);
    is_whole.then_some((cost, rest))
}
