//! Word graphs as values.

use crate::fields::{Fields, Packer};
use crate::limits::{width, COST_WIDTH, EDGES_WIDTH, KIND_WIDTH, MAX_EDGES, MAX_PLACES, MAX_WEIGHT, NOT_HEARD};
use crate::limits::{PLACES_WIDTH, PLACE_WIDTH};
use crate::services::listing;
use crate::{Grammar, Refusal, Utterance};
use std::ops::RangeInclusive;

/// The kind of a graph's block.
pub(crate) const KIND: u32 = 5;

/// A word that was heard between two places of a graph. The graph offers it there if its cost is below [`NOT_HEARD`].
#[derive(Clone, Copy, Debug, PartialEq, Eq, Hash)]
pub struct Edge {
    /// The place where the word starts.
    pub from: u32,
    /// The place where it ends, which is above.
    pub to: u32,
    /// The word's number.
    pub word: u32,
    /// What taking it costs, or [`NOT_HEARD`].
    pub cost: u32,
}

impl Edge {
    /// Whether a reading can use it: the word was heard.
    pub const fn is_offered(self) -> bool {
        self.cost < NOT_HEARD
    }

    /// Whether both are the same word between the same places, at whatever cost. A graph has no two such edges.
    pub fn is_alike(self, other: Self) -> bool {
        (self.from, self.to, self.word) == (other.from, other.to, other.word)
    }
}

/// What newer recognisers deliver in place of slots: places, and words on edges between them, as plain numbers. Nothing is
/// checked until it is packed. A reading takes the words of a path from place 0 to the last place, of as many edges as that
/// path has, with the numbers of the edges ([`Reading`](crate::Reading)).
///
/// A graph has no sheet, so it is packed here and not by the library.
///
/// ```
/// use spireyerba::{Body, Edge, Grammar, Graph, Rule};
///
/// // two phrases make a phrase, at weight 1; word 0 is a phrase
/// let rules = vec![
///     Rule { head: 0, weight: 1, body: Body::Pair(0, 0) },
///     Rule { head: 0, weight: 0, body: Body::Word(0) },
/// ];
/// let grammar = Grammar { symbols: 1, words: 1, rules };
/// // the word three times, or once over the first two places at cost 3 and then a second time
/// let edge = |from, to, cost| Edge { from, to, word: 0, cost };
/// let graph = Graph { places: 4, edges: vec![edge(0, 1, 0), edge(1, 2, 0), edge(0, 2, 3), edge(2, 3, 0)] };
///
/// let list = grammar.list(&graph, 8)?;
/// let in_short = list.iter().map(|found| (found.weight, &found.walk[..], found.edges()));
/// assert!(in_short.eq([
///     (2, &[0, 1, 0, 1, 1][..], &[0, 1, 3][..]),
///     (2, &[0, 0, 1, 1, 1], &[0, 1, 3]),
///     (4, &[0, 1, 1], &[2, 3]),
/// ]));
/// # Ok::<(), spireyerba::Refusal>(())
/// ```
#[derive(Clone, Debug, PartialEq, Eq, Hash)]
pub struct Graph {
    /// How many places there are.
    pub places: u32,
    /// The edges, numbered from 0.
    pub edges: Vec<Edge>,
}

impl Graph {
    /// Unpacks a block under a grammar, given as its block, or refuses it as [`listing`] does; an utterance of slots with
    /// [`Refusal::UtteranceKind`].
    pub fn from_block(grammar: &[u8], block: &[u8]) -> Result<Self, Refusal> {
        let words = Grammar::from_block(grammar)?.words;
        if block.first().is_some_and(|&byte| u32::from(byte >> 4) != KIND) {
            return Err(Refusal::UtteranceKind);
        }
        // a listing of no readings is refused for both blocks before it is for that number
        match listing(grammar, block, 0, &mut [], &mut []) {
            Err(Refusal::ListingWanted) => Ok(Self::of_accepted(words, block)),
            Err(refusal) => Err(refusal),
            Ok(_) => unreachable!("a listing of no readings is refused"),
        }
    }

    /// Packs the graph under a grammar, given as its block. Refuses with 1 to 7 for the grammar; with
    /// [`Refusal::UtteranceRange`] for the number of places, then of edges; and edge by edge with [`Refusal::EdgePlaces`],
    /// [`Refusal::UtteranceWord`], [`Refusal::SheetValue`] for a cost that passes 65,535, and [`Refusal::EdgeRepeat`].
    ///
    /// ```
    /// use spireyerba::{Edge, Graph, Refusal};
    ///
    /// // one symbol, one word, two rules
    /// let grammar = [0x10, 0x40, 0x40, 0x40, 0x00, 0x09, 0x00, 0x00, 0x00];
    /// let mut graph = Graph { places: 3, edges: vec![Edge { from: 0, to: 2, word: 0, cost: 7 }] };
    /// assert_eq!(graph.to_block(&grammar)?, [0x51, 0x81, 0x00, 0x80, 0x00, 0xe0]);
    /// graph.edges[0].to = 3;
    /// assert_eq!(graph.to_block(&grammar), Err(Refusal::EdgePlaces));
    /// # Ok::<(), Refusal>(())
    /// ```
    pub fn to_block(&self, grammar: &[u8]) -> Result<Vec<u8>, Refusal> {
        self.pack(Grammar::from_block(grammar)?.words)
    }

    /// Packs the graph under a grammar of so many words.
    pub(crate) fn pack(&self, words: u32) -> Result<Vec<u8>, Refusal> {
        self.check(words)?;
        let mut packer = Packer::default();
        packer.put(KIND_WIDTH, KIND);
        packer.put(PLACES_WIDTH, self.places);
        packer.put(EDGES_WIDTH, self.edges.len() as u32);
        for edge in &self.edges {
            packer.put(PLACE_WIDTH, edge.from);
            packer.put(PLACE_WIDTH, edge.to);
            packer.put(width(words - 1), edge.word);
            packer.put(COST_WIDTH, edge.cost);
        }
        Ok(packer.finish())
    }

    /// Refuses what no block under a grammar of so many words holds.
    fn check(&self, words: u32) -> Result<(), Refusal> {
        let within =
            |range: RangeInclusive<usize>, number| range.contains(&number).then_some(()).ok_or(Refusal::UtteranceRange);
        within(2..=MAX_PLACES as usize, self.places as usize)?;
        within(1..=MAX_EDGES as usize, self.edges.len())?;
        for (number, edge) in self.edges.iter().enumerate() {
            if edge.from >= edge.to || edge.to >= self.places {
                return Err(Refusal::EdgePlaces);
            }
            if edge.word >= words {
                return Err(Refusal::UtteranceWord);
            }
            if edge.cost > MAX_WEIGHT {
                return Err(Refusal::SheetValue);
            }
            if self.edges[..number].iter().any(|earlier| earlier.is_alike(*edge)) {
                return Err(Refusal::EdgeRepeat);
            }
        }
        Ok(())
    }

    /// The graph of a block that the library accepted under a grammar of so many words.
    fn of_accepted(words: u32, block: &[u8]) -> Self {
        let mut fields = Fields::new(block);
        let mut field = |width| fields.take(width);
        field(KIND_WIDTH);
        let (places, count) = (field(PLACES_WIDTH), field(EDGES_WIDTH));
        let edge = |_| Edge {
            from: field(PLACE_WIDTH),
            to: field(PLACE_WIDTH),
            word: field(width(words - 1)),
            cost: field(COST_WIDTH),
        };
        Self { places, edges: (0..count).map(edge).collect() }
    }
}

/// The slots redrawn: a place before each slot and one behind the last, and every candidate on an edge over its slot. If it
/// has no more than [`MAX_EDGES`] edges, its readings are those of the slots, in the same order.
///
/// ```
/// use spireyerba::{Candidate, Edge, Graph, Utterance};
///
/// let candidate = |word| Candidate { word, cost: 10 * word };
/// let graph = Graph::from(&Utterance { slots: vec![vec![candidate(0), candidate(2)], vec![candidate(1)]] });
/// let edge = |from, word| Edge { from, to: from + 1, word, cost: 10 * word };
/// assert_eq!(graph, Graph { places: 3, edges: vec![edge(0, 0), edge(0, 2), edge(1, 1)] });
/// ```
impl From<&Utterance> for Graph {
    fn from(utterance: &Utterance) -> Self {
        let slots = (0..).zip(&utterance.slots);
        let edges = slots.flat_map(|(from, slot)| {
            slot.iter().map(move |candidate| Edge { from, to: from + 1, word: candidate.word, cost: candidate.cost })
        });
        Self { places: utterance.slots.len() as u32 + 1, edges: edges.collect() }
    }
}
