//! What was heard: slots, or a word graph.

use crate::{Graph, PackedGrammar, Refusal, Utterance};

/// What was heard, in one of both forms. Every service that takes it takes a reference to an [`Utterance`] or to a [`Graph`]
/// as well.
///
/// ```
/// use spireyerba::{text::NamedGrammar, Graph, Heard};
///
/// let doors = NamedGrammar::parse("Entry -> Door Number\nDoor -> \"door\"\nNumber -> \"four\" | \"five\" [2]")?;
/// let utterance = doors.parse_utterance("door 3; four 9 | five 5")?;
/// let graph = Graph::from(&utterance);
/// let weights = |heard: &Heard| doors.grammar.list(heard, 8).map(|list| list[0].weight);
/// assert_eq!(weights(&utterance.into())?, 10);
/// assert_eq!(weights(&graph.into())?, 10);
/// # Ok::<(), spireyerba::Error>(())
/// ```
#[derive(Clone, Debug, PartialEq, Eq, Hash)]
pub enum Heard {
    /// Slots.
    Slots(Utterance),
    /// A word graph.
    Graph(Graph),
}

impl Heard {
    /// Unpacks a block of either kind under a grammar, given as its block, or refuses it as
    /// [`listing`](crate::services::listing) does.
    pub fn from_block(grammar: &[u8], block: &[u8]) -> Result<Self, Refusal> {
        match Utterance::from_block(grammar, block) {
            Err(Refusal::UtteranceKind) => Graph::from_block(grammar, block).map(Self::Graph),
            slots => slots.map(Self::Slots),
        }
    }

    /// Packs it under a grammar, given as its block, or refuses it as [`Utterance::to_block`] or [`Graph::to_block`] does.
    pub fn to_block(&self, grammar: &[u8]) -> Result<Vec<u8>, Refusal> {
        match self {
            Self::Slots(utterance) => utterance.to_block(grammar),
            Self::Graph(graph) => graph.to_block(grammar),
        }
    }

    /// The words of the longest reading that there can be: as many as there are slots, or one fewer than places.
    pub fn longest(&self) -> usize {
        match self {
            Self::Slots(utterance) => utterance.slots.len(),
            Self::Graph(graph) => (graph.places as usize).saturating_sub(1),
        }
    }
}

impl From<Utterance> for Heard {
    fn from(utterance: Utterance) -> Self {
        Self::Slots(utterance)
    }
}

impl From<Graph> for Heard {
    fn from(graph: Graph) -> Self {
        Self::Graph(graph)
    }
}

/// A reference to what was heard: what services take. References to a [`Heard`], an [`Utterance`] and a [`Graph`] become one.
#[derive(Clone, Copy, Debug, PartialEq, Eq, Hash)]
pub enum HeardRef<'a> {
    /// Slots.
    Slots(&'a Utterance),
    /// A word graph.
    Graph(&'a Graph),
}

impl HeardRef<'_> {
    /// Packs it under a grammar, or refuses it as [`Utterance::to_block`] or [`Graph::to_block`] does.
    pub(crate) fn pack(self, grammar: &PackedGrammar) -> Result<Vec<u8>, Refusal> {
        match self {
            Self::Slots(utterance) => utterance.to_block(grammar.block()),
            Self::Graph(graph) => graph.pack(grammar.grammar().words),
        }
    }
}

impl<'a> From<&'a Heard> for HeardRef<'a> {
    fn from(heard: &'a Heard) -> Self {
        match heard {
            Heard::Slots(utterance) => Self::Slots(utterance),
            Heard::Graph(graph) => Self::Graph(graph),
        }
    }
}

impl<'a> From<&'a Utterance> for HeardRef<'a> {
    fn from(utterance: &'a Utterance) -> Self {
        Self::Slots(utterance)
    }
}

impl<'a> From<&'a Graph> for HeardRef<'a> {
    fn from(graph: &'a Graph) -> Self {
        Self::Graph(graph)
    }
}
