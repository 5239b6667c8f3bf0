//! Which word to listen to again.

use crate::limits::{margins_length, work_length, MARGIN_NUMBERS};
use crate::services::word_margins;
use crate::{Grammar, PackedGrammar, Refusal, Utterance};

/// A word that is not in the first reading, and how little is missing.
#[derive(Clone, Copy, Debug, PartialEq, Eq, Hash)]
pub struct WordMargin {
    /// The least amount by which the word's cost alone must fall for some reading to be strictly lighter than the first.
    pub amount: u32,
    /// The slot that offers the word.
    pub slot: u32,
    /// The word's number.
    pub word: u32,
    /// The weight that the lighter reading has now.
    pub weight: u32,
}

impl From<[u32; MARGIN_NUMBERS]> for WordMargin {
    fn from([amount, slot, word, weight]: [u32; MARGIN_NUMBERS]) -> Self {
        Self { amount, slot, word, weight }
    }
}

impl Grammar {
    /// Which words of an utterance are worth listening to again, those first whose cost must fall the least. Words that the
    /// first reading has are left out, and those that bring no other reading however cheap they are. Refuses the grammar and
    /// the utterance as they are when packed.
    ///
    /// ```
    /// use spireyerba::{text::NamedGrammar, WordMargin};
    ///
    /// let doors = NamedGrammar::parse("Entry -> Door Number\nDoor -> \"door\"\nNumber -> \"four\" | \"five\" [2]")?;
    /// let heard = doors.parse_utterance("door 3; four 9 | five 5")?;
    /// // `door five` weighs 10 and `door four` 12: at a cost of 6 it would weigh 9
    /// let margins = doors.grammar.word_margins(&heard)?;
    /// assert_eq!(margins, [WordMargin { amount: 3, slot: 1, word: 1, weight: 12 }]);
    /// # Ok::<(), spireyerba::Error>(())
    /// ```
    pub fn word_margins(&self, utterance: &Utterance) -> Result<Vec<WordMargin>, Refusal> {
        PackedGrammar::new(self)?.word_margins(utterance)
    }
}

impl PackedGrammar {
    /// Which words of an utterance are worth listening to again, as [`Grammar::word_margins`] says it.
    pub fn word_margins(&self, utterance: &Utterance) -> Result<Vec<WordMargin>, Refusal> {
        let block = utterance.to_block(self.block())?;
        let mut work = vec![0; work_length(self.grammar().symbols as usize, utterance.slots.len(), 1)];
        let mut out = vec![0; margins_length(utterance.slots.iter().map(Vec::len).sum())];
        let count = word_margins(self.block(), &block, &mut work, &mut out)?;
        let (entries, _) = out.as_chunks();
        Ok(entries[..count].iter().copied().map(WordMargin::from).collect())
    }
}
