//! Grammars that are packed once for many calls.

use crate::services::{chance, check};
use crate::{Grammar, HeardRef, Lister, Reading, Refusal};

/// A grammar and its block, for one call after another. What a [`Grammar`] has for one call is here without packing it anew.
///
/// ```
/// use spireyerba::text::NamedGrammar;
///
/// let doors = NamedGrammar::parse("Entry -> Door Number\nDoor -> \"door\"\nNumber -> \"four\" | \"five\" [2]")?;
/// let packed = doors.packed()?;
/// let heard = doors.parse_utterance("door 3; four 9 | five 5")?;
/// let readings = packed.list(&heard, 8)?;
/// assert_eq!(readings, doors.grammar.list(&heard, 8)?);
/// assert!(readings.iter().all(|reading| packed.check(&heard, reading).is_ok()));
/// # Ok::<(), spireyerba::Error>(())
/// ```
#[derive(Clone, Debug, PartialEq, Eq, Hash)]
pub struct PackedGrammar {
    grammar: Grammar,
    block: Vec<u8>,
}

impl PackedGrammar {
    /// A grammar that is the one of a block, with or without marks.
    pub(crate) fn of_accepted(grammar: Grammar, block: Vec<u8>) -> Self {
        Self { grammar, block }
    }

    /// Packs the grammar, or refuses it as [`Grammar::to_block`] does.
    pub fn new(grammar: &Grammar) -> Result<Self, Refusal> {
        Ok(Self { block: grammar.to_block()?, grammar: grammar.clone() })
    }

    /// Takes a block, with or without marks, or refuses it as [`Grammar::from_block`] does.
    pub fn from_block(block: &[u8]) -> Result<Self, Refusal> {
        Ok(Self { grammar: Grammar::from_block(block)?, block: block.to_vec() })
    }

    /// The grammar, without its marks.
    pub fn grammar(&self) -> &Grammar {
        &self.grammar
    }

    /// The block, with its marks if it has any.
    pub fn block(&self) -> &[u8] {
        &self.block
    }

    /// The `wanted` least readings of what was heard, as [`Grammar::list`] has them.
    pub fn list<'a>(&self, heard: impl Into<HeardRef<'a>>, wanted: u32) -> Result<Vec<Reading>, Refusal> {
        Lister::of(self.clone()).list(heard, wanted)
    }

    /// Passes a reading of what was heard, as [`Grammar::check`] does.
    pub fn check<'a>(&self, heard: impl Into<HeardRef<'a>>, reading: &Reading) -> Result<(), Refusal> {
        check(&self.block, &heard.into().pack(self)?, &reading.to_block(&self.grammar)?)
    }

    /// The chance of a reading of what was heard, as [`Grammar::chance`] has it.
    pub fn chance<'a>(
        &self,
        heard: impl Into<HeardRef<'a>>,
        reading: &Reading,
        shares: &[u32],
    ) -> Result<f64, Refusal> {
        let (heard, mut product) = (heard.into().pack(self)?, 0.0);
        chance(&self.block, &heard, &reading.to_block(&self.grammar)?, shares, &mut product)?;
        Ok(product)
    }
}
