//! Costs known within ranges.

use crate::limits::work_length;
use crate::services::{cost_ranges, FirstReading};
use crate::{Grammar, PackedGrammar, Refusal, Utterance};

/// How the first weight of an utterance varies with costs that are known within ranges.
#[derive(Clone, Copy, Debug, PartialEq, Eq, Hash)]
pub struct CostRanges {
    /// The least weight that a first reading has under some choice of costs.
    pub least: u32,
    /// The greatest.
    pub greatest: u32,
    /// Whether the first reading for the low costs has least weight under every choice.
    pub stands: bool,
}

impl Grammar {
    /// What can be said of the first reading where each word costs from what `low` says to what `high` says; nothing if there is
    /// no derivation. Refuses the grammar and the utterances as they are when packed, then with [`Refusal::RangesDisagree`].
    ///
    /// ```
    /// use spireyerba::text::NamedGrammar;
    ///
    /// let doors = NamedGrammar::parse("Entry -> Door Number\nDoor -> \"door\"\nNumber -> \"four\" | \"five\" [2]")?;
    /// let low = doors.parse_utterance("door 3; four 1 | five 1")?;
    /// let high = doors.parse_utterance("door 3; four 9 | five 5")?;
    /// let ranges = doors.grammar.cost_ranges(&low, &high)?.expect("a reading");
    /// // `five` is lighter where `four` costs more than 3
    /// assert_eq!((ranges.least, ranges.greatest, ranges.stands), (4, 10, false));
    /// # Ok::<(), spireyerba::Error>(())
    /// ```
    pub fn cost_ranges(&self, low: &Utterance, high: &Utterance) -> Result<Option<CostRanges>, Refusal> {
        PackedGrammar::new(self)?.cost_ranges(low, high)
    }
}

impl PackedGrammar {
    /// What can be said of the first reading where costs are known within ranges, as [`Grammar::cost_ranges`] says it.
    pub fn cost_ranges(&self, low: &Utterance, high: &Utterance) -> Result<Option<CostRanges>, Refusal> {
        let blocks = [low.to_block(self.block())?, high.to_block(self.block())?];
        let mut work = vec![0; work_length(self.grammar().symbols as usize, low.slots.len(), 1)];
        let (mut least, mut greatest) = (0, 0);
        let first = cost_ranges(self.block(), &blocks[0], &blocks[1], &mut work, &mut least, &mut greatest)?;
        let stands = first == FirstReading::Stands;
        Ok((first != FirstReading::Nothing).then_some(CostRanges { least, greatest, stands }))
    }
}
