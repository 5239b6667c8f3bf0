//! Many listings under one grammar.

use crate::few_first::FewFirst;
use crate::fields::Fields;
use crate::graph::KIND as GRAPH_KIND;
use crate::limits::{graph_reading_length, reading_length, work_length, MAX_READINGS};
use crate::limits::{KIND_WIDTH, MAX_SLOTS, PANEL_MAX_READINGS, PLACES_WIDTH, SLOTS_WIDTH};
use crate::services::{listing, panel_listing};
use crate::{Grammar, HeardRef, PackedGrammar, Reading, Refusal};

/// A grammar that was packed once, and the memory that its listings need, which is kept from one to the next.
///
/// The library clears a table with room for all readings that are wanted, and most utterances have few. So 16 are asked for
/// first, and more only if so many came: fewer than were asked for are all that there are, so the list is the same. Where the
/// last lists were all longer, more are asked for first.
///
/// ```
/// use spireyerba::text::NamedGrammar;
/// use spireyerba::Lister;
///
/// let doors = NamedGrammar::parse("Entry -> Door Number\nDoor -> \"door\"\nNumber -> \"four\" | \"five\" [2]")?;
/// let mut lister = Lister::new(&doors.grammar)?;
/// for (heard, said) in [("door 3; four 9 | five 5", "door five"), ("door 7; four 1", "door four")] {
///     let readings = lister.list(&doors.parse_utterance(heard)?, 1)?;
///     assert_eq!(doors.sentence(&readings[0]), said);
/// }
/// # Ok::<(), spireyerba::Error>(())
/// ```
#[derive(Clone, Debug)]
pub struct Lister {
    grammar: PackedGrammar,
    work: Vec<u32>,
    out: Vec<u8>,
    service: Service,
    /// The greatest number that the service takes.
    most: u32,
    few_first: FewFirst,
}

/// [`listing`] or [`panel_listing`].
type Service = fn(&[u8], &[u8], u32, &mut [u32], &mut [u8]) -> Result<usize, Refusal>;

impl Lister {
    /// Packs the grammar, or refuses it as [`Grammar::to_block`] does.
    pub fn new(grammar: &Grammar) -> Result<Self, Refusal> {
        PackedGrammar::new(grammar).map(Self::of)
    }

    /// Lists under a grammar that is packed already.
    pub fn of(grammar: PackedGrammar) -> Self {
        let few_first = FewFirst::of(grammar.grammar());
        Self { grammar, work: Vec::new(), out: Vec::new(), service: listing, most: MAX_READINGS, few_first }
    }

    /// Lists within the limits of a desk panel from now on, those of [`panel_listing`].
    ///
    /// ```
    /// use spireyerba::text::NamedGrammar;
    /// use spireyerba::{Lister, Refusal};
    ///
    /// let doors = NamedGrammar::parse("Entry -> Door Number\nDoor -> \"door\"\nNumber -> \"four\" | \"five\" [2]")?;
    /// let heard = doors.parse_utterance("door 3; four 9 | five 5")?;
    /// let mut library = Lister::new(&doors.grammar)?;
    /// let mut panel = library.clone().panel();
    /// assert_eq!(panel.list(&heard, 16), library.list(&heard, 16));
    /// assert_eq!(panel.list(&heard, 17), Err(Refusal::PanelWanted));
    /// # Ok::<(), spireyerba::Error>(())
    /// ```
    pub fn panel(self) -> Self {
        Self { service: panel_listing, most: PANEL_MAX_READINGS, ..self }
    }

    /// The grammar.
    pub fn grammar(&self) -> &PackedGrammar {
        &self.grammar
    }

    /// The `wanted` least readings of what was heard, as [`Grammar::list`] has them.
    pub fn list<'a>(&mut self, heard: impl Into<HeardRef<'a>>, wanted: u32) -> Result<Vec<Reading>, Refusal> {
        Ok(self.find(heard, wanted)?.readings().collect())
    }

    /// The `wanted` least readings of what was heard, left packed.
    pub fn find<'a>(&mut self, heard: impl Into<HeardRef<'a>>, wanted: u32) -> Result<Found<'_>, Refusal> {
        let block = heard.into().pack(&self.grammar)?;
        self.find_in_block(&block, wanted)
    }

    /// The `wanted` least readings of an utterance or of a word graph, given as its block, left packed. Refuses it as [`listing`]
    /// does, then with [`Refusal::ListingWanted`]. Once the tables are as large as the utterances need, no memory is allocated.
    ///
    /// ```
    /// use spireyerba::text::{NamedGrammar, UtteranceReader};
    /// use spireyerba::{Lister, Reading};
    ///
    /// let doors = NamedGrammar::parse("Entry -> Door Number\nDoor -> \"door\"\nNumber -> \"four\" | \"five\" [2]")?;
    /// let reader = UtteranceReader::new(&doors);
    /// let (mut lister, mut kept) = (Lister::new(&doors.grammar)?, Reading::default());
    /// let (mut sheet, mut block) = (Vec::new(), Vec::new());
    /// for (heard, weights) in [("door 3; four 9 | five 5", &[10, 12][..]), ("door 7; four 1", &[8])] {
    ///     reader.read_block(heard, &mut sheet, &mut block)?;
    ///     let found = lister.find_in_block(&block, 8)?;
    ///     assert_eq!(found.len(), weights.len());
    ///     for (number, weight) in weights.iter().enumerate() {
    ///         found.read(number, &mut kept);
    ///         assert_eq!(kept.weight, *weight);
    ///     }
    /// }
    /// # Ok::<(), spireyerba::Error>(())
    /// ```
    pub fn find_in_block(&mut self, block: &[u8], wanted: u32) -> Result<Found<'_>, Refusal> {
        let (words, length) = longest(block, self.grammar.grammar().rules.len());
        // a number that is refused is asked for as it is
        let mut asked = if wanted > self.most { wanted } else { self.few_first.first(wanted) };
        let mut count = self.call(block, asked, (words, length))?;
        while count == asked as usize && asked < wanted {
            asked = self.few_first.next(asked, wanted);
            count = self.call(block, asked, (words, length))?;
        }
        self.few_first.remember(count as u32, wanted);
        Ok(Found { grammar: self.grammar.grammar(), blocks: &self.out, length, count })
    }

    /// Lists so many readings, of which the longest has so many words and bytes.
    fn call(&mut self, block: &[u8], wanted: u32, (words, length): (usize, usize)) -> Result<usize, Refusal> {
        let most = wanted.min(MAX_READINGS) as usize;
        let symbols = self.grammar.grammar().symbols as usize;
        let work = lent(&mut self.work, work_length(symbols, words, most));
        // room to look a few bytes past the last reading
        lent(&mut self.out, most * length + size_of::<u64>());
        (self.service)(self.grammar.block(), block, wanted, work, &mut self.out[..most * length])
    }
}

/// The words and the bytes of the longest reading that there can be of a block under so many rules. Of what the library refuses
/// it is any: whatever is lent will do then.
pub(crate) fn longest(block: &[u8], rules: usize) -> (usize, usize) {
    let mut front = [0; 2];
    front.iter_mut().zip(block).for_each(|(to, byte)| *to = *byte);
    let mut fields = Fields::new(&front);
    let within = |words: u32| words.clamp(1, MAX_SLOTS) as usize;
    match fields.take(KIND_WIDTH) {
        GRAPH_KIND => {
            let edges = within(fields.take(PLACES_WIDTH).saturating_sub(1));
            (edges, graph_reading_length(edges, rules))
        }
        _ => {
            let slots = within(fields.take(SLOTS_WIDTH));
            (slots, reading_length(slots, rules))
        }
    }
}

/// The front of a table, which grows if it is short.
fn lent<T: Clone + Default>(table: &mut Vec<T>, length: usize) -> &mut [T] {
    if table.len() < length {
        table.resize(length, T::default());
    }
    &mut table[..length]
}

/// The readings that a [`Lister`] found, the least first, still packed.
#[derive(Clone, Copy, Debug)]
pub struct Found<'a> {
    grammar: &'a Grammar,
    /// Their blocks, and what stands behind them.
    blocks: &'a [u8],
    /// The bytes of each.
    length: usize,
    count: usize,
}

impl<'a> Found<'a> {
    /// How many there are.
    pub fn len(&self) -> usize {
        self.count
    }

    /// Whether there are none.
    pub fn is_empty(&self) -> bool {
        self.count == 0
    }

    /// Puts the reading with a number, from 0 on, in the place of another, in the memory that it has.
    pub fn read(&self, number: usize, into: &mut Reading) {
        assert!(number < self.count, "there are {} readings", self.count);
        into.unpack(&self.blocks[number * self.length..], self.grammar);
    }

    /// The readings.
    pub fn readings(self) -> impl Iterator<Item = Reading> + 'a {
        (0..self.count).map(move |number| {
            let mut reading = Reading::default();
            self.read(number, &mut reading);
            reading
        })
    }
}
