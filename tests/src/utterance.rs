//! The blocks and sheets of utterances (document 01, "Grammars and derivations", "Packed blocks"), and what they offer
//! (document 02, N3).

use crate::bits::{BitReader, BitWriter};
use crate::grammar::word_width;
use spireyerba::limits::{MAX_CANDIDATES, MAX_SLOTS, MAX_WEIGHT};
use spireyerba::{Candidate, Grammar, Refusal, Utterance};

const KIND: u32 = 2;
const COST_WIDTH: usize = 16;

/// The utterance without the words that were not heard. A slot may be left with none, which no block can hold.
pub fn struck_out(utterance: &Utterance) -> Utterance {
    let offered = |slot: &Vec<Candidate>| slot.iter().copied().filter(|candidate| candidate.is_offered()).collect();
    Utterance { slots: utterance.slots.iter().map(offered).collect() }
}

/// The cost of a word in a slot of an utterance that is struck out, if the slot exists and offers it.
pub fn cost(utterance: &Utterance, slot: usize, word: u32) -> Option<u32> {
    let candidate = utterance.slots.get(slot)?.iter().find(|candidate| candidate.word == word)?;
    Some(candidate.cost)
}

/// Reads a block under a grammar, or refuses it with 11 to 16.
pub fn from_block(grammar: &Grammar, block: &[u8]) -> Result<Utterance, Refusal> {
    let mut reader = BitReader::new(block);
    let mut field = |width| reader.field(width).ok_or(Refusal::UtteranceEnd);
    if field(4)? != KIND {
        return Err(Refusal::UtteranceKind);
    }
    let mut slots = Vec::new();
    for _ in 0..up_to(MAX_SLOTS, field(6)?)? {
        let mut slot = Vec::new();
        for _ in 0..up_to(MAX_CANDIDATES, field(3)?)? {
            let word = next_word(grammar, &slot, field(word_width(grammar))?)?;
            let cost = field(COST_WIDTH)?;
            slot.push(Candidate { word, cost });
        }
        slots.push(slot);
    }
    if !reader.only_fill_left() {
        return Err(Refusal::UtteranceFill);
    }
    Ok(Utterance { slots })
}

/// Packs an utterance. Nothing is checked: numbers out of range make a block that is refused.
pub fn pack(grammar: &Grammar, utterance: &Utterance) -> Vec<u8> {
    let mut writer = BitWriter::default();
    writer.field(4, KIND);
    writer.field(6, utterance.slots.len() as u32);
    for slot in &utterance.slots {
        writer.field(3, slot.len() as u32);
        for candidate in slot {
            writer.field(word_width(grammar), candidate.word);
            writer.field(COST_WIDTH, candidate.cost);
        }
    }
    writer.finish()
}

/// Reads a sheet under a grammar, or refuses it with 41, 42 or 13 to 15.
pub fn from_sheet(grammar: &Grammar, sheet: &[u32]) -> Result<Utterance, Refusal> {
    let mut numbers = sheet.iter().copied();
    let mut field = || numbers.next().ok_or(Refusal::SheetCount);
    let mut slots = Vec::new();
    for _ in 0..up_to(MAX_SLOTS, field()?)? {
        let mut slot = Vec::new();
        for _ in 0..up_to(MAX_CANDIDATES, field()?)? {
            let word = next_word(grammar, &slot, field()?)?;
            let cost = field()?;
            if cost > MAX_WEIGHT {
                return Err(Refusal::SheetValue);
            }
            slot.push(Candidate { word, cost });
        }
        slots.push(slot);
    }
    if numbers.next().is_some() {
        return Err(Refusal::SheetCount);
    }
    Ok(Utterance { slots })
}

fn up_to(most: u32, number: u32) -> Result<u32, Refusal> {
    if (1..=most).contains(&number) {
        Ok(number)
    } else {
        Err(Refusal::UtteranceRange)
    }
}

/// Checks a word that follows the candidates already read in its slot.
fn next_word(grammar: &Grammar, slot: &[Candidate], word: u32) -> Result<u32, Refusal> {
    if word >= grammar.words {
        return Err(Refusal::UtteranceWord);
    }
    match slot.last() {
        Some(before) if word <= before.word => Err(Refusal::UtteranceOrder),
        _ => Ok(word),
    }
}
