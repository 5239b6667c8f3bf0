//! The blocks of readings (document 01, "Packed blocks").

use crate::bits::{BitReader, BitWriter};
use crate::grammar::rule_width;
use spireyerba::limits::{nodes, NOT_HEARD};
use spireyerba::{Body, Candidate, Grammar, Reading, Refusal, Utterance};

const KIND: u32 = 3;
const WEIGHT_WIDTH: usize = 24;

/// The word of each slot in a walk of rules of a grammar.
pub fn words(grammar: &Grammar, walk: &[u32]) -> Vec<u32> {
    let word = |&number: &u32| match grammar.rules[number as usize].body {
        Body::Word(word) => Some(word),
        Body::Pair(..) => None,
    };
    walk.iter().filter_map(word).collect()
}

/// The reading of slots that is that of a path through the graph that they can be redrawn as.
pub fn without_path(reading: Reading) -> Reading {
    Reading { path: None, ..reading }
}

/// How many words of a walk their slots have, but did not hear.
pub fn count_not_heard(grammar: &Grammar, utterance: &Utterance, walk: &[u32]) -> usize {
    let words = words(grammar, walk);
    let pairs = utterance.slots.iter().zip(words);
    pairs.filter(|&(slot, word)| slot.contains(&Candidate { word, cost: NOT_HEARD })).count()
}

/// Packs a reading. Nothing is checked: numbers out of range are cut to their width.
pub fn pack(grammar: &Grammar, reading: &Reading) -> Vec<u8> {
    let mut writer = BitWriter::default();
    writer.field(4, KIND);
    writer.field(6, reading.walk.len().div_ceil(2) as u32);
    writer.field(WEIGHT_WIDTH, reading.weight);
    for &rule in &reading.walk {
        writer.field(rule_width(grammar), rule);
    }
    writer.finish()
}

/// Reads all fields, or refuses with 31 to 33. The second part is whether only fill is left (else 36).
pub fn from_block(grammar: &Grammar, slots: usize, block: &[u8]) -> Result<(Reading, bool), Refusal> {
    let mut reader = BitReader::new(block);
    let mut field = |width| reader.field(width).ok_or(Refusal::ReadingEnd);
    if field(4)? != KIND {
        return Err(Refusal::ReadingKind);
    }
    if field(6)? as usize != slots {
        return Err(Refusal::ReadingSlots);
    }
    let weight = field(WEIGHT_WIDTH)?;
    let walk = (0..nodes(slots)).map(|_| field(rule_width(grammar))).collect::<Result<_, _>>()?;
    Ok((Reading::of_slots(weight, walk), reader.only_fill_left()))
}
