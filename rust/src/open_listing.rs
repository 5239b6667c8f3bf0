//! Readings one by one.

use crate::limits::{work_length, MAX_READINGS};
use crate::lister::longest;
use crate::services::{next, open, Next, Place};
use crate::{Grammar, HeardRef, PackedGrammar, Reading, Refusal};

impl Grammar {
    /// Opens a listing of what was heard: its readings are found when they are asked for, the least first. Refuses as
    /// [`Grammar::to_block`] and [`Utterance::to_block`](crate::Utterance::to_block) or
    /// [`Graph::to_block`](crate::Graph::to_block) do.
    ///
    /// ```
    /// use spireyerba::text::NamedGrammar;
    ///
    /// let doors = NamedGrammar::parse("Entry -> Door Number\nDoor -> \"door\"\nNumber -> \"four\" | \"five\" [2]")?;
    /// let heard = doors.parse_utterance("door 3; four 9 | five 5")?;
    /// let mut open = doors.grammar.open(&heard)?;
    /// let first = open.next().expect("a reading");
    /// assert_eq!((doors.sentence(&first).as_str(), first.weight), ("door five", 10));
    /// // nothing else is looked for until somebody asks
    /// let meant = open.find(|found| doors.sentence(found) == "door four");
    /// assert_eq!(meant.expect("a reading").weight, 12);
    /// assert_eq!((open.next(), open.handed(), open.is_full()), (None, 2, false));
    /// # Ok::<(), spireyerba::Error>(())
    /// ```
    pub fn open<'a>(&self, heard: impl Into<HeardRef<'a>>) -> Result<OpenListing, Refusal> {
        PackedGrammar::new(self)?.open(heard)
    }
}

impl PackedGrammar {
    /// Opens a listing of what was heard, as [`Grammar::open`] does.
    pub fn open<'a>(&self, heard: impl Into<HeardRef<'a>>) -> Result<OpenListing, Refusal> {
        let heard = heard.into().pack(self)?;
        OpenListing::new(self.clone(), heard)
    }
}

/// A listing whose readings are handed out one by one, the least first ([`Grammar::open`]).
///
/// It owns its place and its table, which has room for 256 readings. As an iterator it ends where there are no more readings, or
/// after 256, where the listing is [full](Self::is_full).
#[derive(Clone, Debug)]
pub struct OpenListing {
    grammar: PackedGrammar,
    heard: Vec<u8>,
    place: Place,
    work: Vec<u32>,
    out: Vec<u8>,
}

impl OpenListing {
    fn new(packed: PackedGrammar, heard: Vec<u8>) -> Result<Self, Refusal> {
        let grammar = packed.grammar();
        let (words, length) = longest(&heard, grammar.rules.len());
        let mut work = vec![0; work_length(grammar.symbols as usize, words, MAX_READINGS as usize)];
        let mut place = Place::default();
        open(packed.block(), &heard, &mut place, &mut work)?;
        Ok(Self { grammar: packed, heard, place, work, out: vec![0; length] })
    }

    /// How many readings were handed out.
    pub fn handed(&self) -> u32 {
        self.place.handed
    }

    /// Whether as many were handed out as there can be: there may be more that no listing has.
    pub fn is_full(&self) -> bool {
        self.place.handed == MAX_READINGS
    }
}

impl Iterator for OpenListing {
    type Item = Reading;

    fn next(&mut self) -> Option<Reading> {
        let Self { grammar, heard, place, work, out } = self;
        let answer = next(grammar.block(), heard, place, work, out);
        match answer.expect("what was opened and not altered is not refused") {
            Next::Reading => Some(Reading::of_accepted(out, grammar.grammar())),
            Next::NoMore | Next::Full => None,
        }
    }
}

/// Once it has ended, every call answers the same.
impl std::iter::FusedIterator for OpenListing {}
