//! Utterances as values.

use crate::fields::Packer;
use crate::limits::{width, CANDIDATES_WIDTH, COST_WIDTH, KIND_WIDTH, SLOTS_WIDTH};
use crate::limits::{NOT_HEARD, UTTERANCE_BLOCK_MAX, UTTERANCE_SHEET_MAX};
use crate::services::{utterance_to_block, utterance_to_sheet};
use crate::Refusal;

/// The kind of an utterance's block.
const KIND: u32 = 2;

/// A word of a slot. The slot offers it if its cost is below [`NOT_HEARD`].
///
/// Recognisers write that cost for a word that was not heard. Such a candidate counts, must ascend and is carried unchanged
/// like any other, but it is in no reading; if a slot has no other, the utterance has no reading.
///
/// ```
/// use spireyerba::{limits::NOT_HEARD, Candidate};
///
/// assert!(Candidate { word: 0, cost: NOT_HEARD - 1 }.is_offered());
/// assert!(!Candidate { word: 0, cost: NOT_HEARD }.is_offered());
/// ```
#[derive(Clone, Copy, Debug, PartialEq, Eq, Hash)]
pub struct Candidate {
    /// The word's number.
    pub word: u32,
    /// What taking it costs, or [`NOT_HEARD`].
    pub cost: u32,
}

impl Candidate {
    /// Whether a reading can use it: the word was heard.
    pub const fn is_offered(self) -> bool {
        self.cost < NOT_HEARD
    }
}

/// What was heard slot by slot, as plain numbers. Nothing is checked until it is packed.
#[derive(Clone, Debug, PartialEq, Eq, Hash)]
pub struct Utterance {
    /// The slots, numbered from 0, each with its candidates, words ascending.
    pub slots: Vec<Vec<Candidate>>,
}

impl Utterance {
    /// Reads a sheet under a grammar, given as its block, or refuses it as [`utterance_to_block`] does.
    pub fn from_sheet(grammar: &[u8], sheet: &[u32]) -> Result<Self, Refusal> {
        utterance_to_block(grammar, sheet, &mut [0; UTTERANCE_BLOCK_MAX])?;
        Ok(Self::of_accepted(sheet))
    }

    /// The sheet: plain numbers, written out as they are.
    pub fn to_sheet(&self) -> Vec<u32> {
        let candidates: usize = self.slots.iter().map(Vec::len).sum();
        let mut sheet = Vec::with_capacity(1 + self.slots.len() + 2 * candidates);
        sheet.push(self.slots.len() as u32);
        for slot in &self.slots {
            sheet.push(slot.len() as u32);
            sheet.extend(slot.iter().flat_map(|candidate| [candidate.word, candidate.cost]));
        }
        sheet
    }

    /// Unpacks a block under a grammar, given as its block, or refuses it as [`utterance_to_sheet`] does.
    pub fn from_block(grammar: &[u8], block: &[u8]) -> Result<Self, Refusal> {
        let mut sheet = [0; UTTERANCE_SHEET_MAX];
        let length = utterance_to_sheet(grammar, block, &mut sheet)?;
        Ok(Self::of_accepted(&sheet[..length]))
    }

    /// Packs the utterance under a grammar, given as its block, or refuses it as [`utterance_to_block`] refuses its sheet.
    pub fn to_block(&self, grammar: &[u8]) -> Result<Vec<u8>, Refusal> {
        let mut block = vec![0; UTTERANCE_BLOCK_MAX];
        let length = utterance_to_block(grammar, &self.to_sheet(), &mut block)?;
        block.truncate(length);
        Ok(block)
    }

    /// The utterance of a sheet that the library accepted or wrote, or that has all its numbers.
    pub(crate) fn of_accepted(sheet: &[u32]) -> Self {
        let mut numbers = sheet.iter().copied();
        let mut next = || numbers.next().expect("an accepted sheet has all its numbers");
        let slots = next();
        let slot = |_| (0..next()).map(|_| Candidate { word: next(), cost: next() }).collect();
        Self { slots: (0..slots).map(slot).collect() }
    }
}

/// Packs a sheet that has all its numbers, each of which its field has room for, under a grammar of so many words, in the place
/// of another block and in the memory that it has.
pub(crate) fn pack_accepted(sheet: &[u32], words: u32, block: &mut Vec<u8>) {
    let mut packer = Packer::again(std::mem::take(block));
    packer.put(KIND_WIDTH, KIND);
    let word_width = width(words - 1);
    let (slots, mut rest) = sheet.split_first().expect("a number of slots");
    packer.put(SLOTS_WIDTH, *slots);
    while let [count, after @ ..] = rest {
        packer.put(CANDIDATES_WIDTH, *count);
        let (candidates, after) = after.split_at(2 * *count as usize);
        for candidate in candidates.chunks_exact(2) {
            // word and cost as one field
            packer.put(word_width + COST_WIDTH, candidate[0] << COST_WIDTH | candidate[1]);
        }
        rest = after;
    }
    *block = packer.finish();
}
