//! What can be said in a grammar: strings of words.

use crate::limits::{MAX_PHRASE, MAX_SLOTS};
use crate::services::{next_phrase, specimen};
use crate::{Grammar, PackedGrammar, Refusal};

impl Grammar {
    /// The least string of so many words that the grammar derives, as word numbers; nothing if it derives none. Refuses the
    /// grammar as [`Grammar::to_block`] does, then a length that is not 1 to 24 with [`Refusal::SpecimenLength`].
    ///
    /// ```
    /// use spireyerba::{text::NamedGrammar, Refusal};
    ///
    /// let doors = NamedGrammar::parse("Entry -> Door Number\nDoor -> \"door\"\nNumber -> \"five\" | \"four\"")?;
    /// assert_eq!(doors.grammar.specimen(2)?, Some(vec![0, 1]));
    /// assert_eq!(doors.grammar.specimen(3)?, None);
    /// assert_eq!(doors.grammar.specimen(25), Err(Refusal::SpecimenLength));
    /// # Ok::<(), spireyerba::Error>(())
    /// ```
    pub fn specimen(&self, length: u32) -> Result<Option<Vec<u32>>, Refusal> {
        PackedGrammar::new(self)?.specimen(length)
    }

    /// Every string of so many words that the grammar derives, the least first and each once. Refuses the grammar as
    /// [`Grammar::to_block`] does, then a length that is not 1 to 6 with [`Refusal::SpecimenLength`].
    ///
    /// ```
    /// use spireyerba::text::NamedGrammar;
    ///
    /// let doors = NamedGrammar::parse("Entry -> Door Number\nDoor -> \"door\"\nNumber -> \"five\" | \"four\"")?;
    /// assert!(doors.grammar.phrases(2)?.eq([vec![0, 1], vec![0, 2]]));
    /// assert!(doors.grammar.phrases(7).is_err());
    /// # Ok::<(), spireyerba::Error>(())
    /// ```
    pub fn phrases(&self, length: u32) -> Result<Phrases, Refusal> {
        PackedGrammar::new(self)?.phrases(length)
    }
}

impl PackedGrammar {
    /// The least string of so many words, as [`Grammar::specimen`] has it.
    pub fn specimen(&self, length: u32) -> Result<Option<Vec<u32>>, Refusal> {
        let mut string = [0; MAX_SLOTS as usize];
        let is_there = specimen(self.block(), length, &mut string)?;
        Ok(is_there.then(|| words(&string, length)))
    }

    /// Every string of so many words, as [`Grammar::phrases`] has them.
    pub fn phrases(&self, length: u32) -> Result<Phrases, Refusal> {
        let (grammar, mut string) = (self.block().to_vec(), [0; MAX_PHRASE as usize]);
        let is_there = next_phrase(&grammar, length, true, &mut string)?;
        Ok(Phrases { grammar, length, string, is_there, is_first: true })
    }
}

/// The strings of a length that a grammar derives ([`Grammar::phrases`]). Each is found when it is asked for.
#[derive(Clone, Debug)]
pub struct Phrases {
    grammar: Vec<u8>,
    length: u32,
    /// The last one found, if there was one.
    string: [u8; MAX_PHRASE as usize],
    is_there: bool,
    /// Whether that one is the first and nobody has seen it.
    is_first: bool,
}

impl Iterator for Phrases {
    type Item = Vec<u32>;

    fn next(&mut self) -> Option<Vec<u32>> {
        if self.is_there && !std::mem::take(&mut self.is_first) {
            let next = next_phrase(&self.grammar, self.length, false, &mut self.string);
            self.is_there = next.expect("what was not refused once is not refused");
        }
        self.is_there.then(|| words(&self.string, self.length))
    }
}

/// The words at the front of a string that was written.
fn words(string: &[u8], length: u32) -> Vec<u32> {
    string[..length as usize].iter().copied().map(u32::from).collect()
}
