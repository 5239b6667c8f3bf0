//! What was heard, as it is shown.

use spireyerba::text::NamedGrammar;
use spireyerba::{Candidate, Edge, Graph, Heard, Reading};

/// A word where it was heard. A slot goes from the place with its number to the next.
#[derive(Clone, Copy, PartialEq)]
pub struct Taken {
    pub span: [u32; 2],
    pub candidate: Candidate,
}

impl From<Edge> for Taken {
    fn from(Edge { from, to, word, cost }: Edge) -> Self {
        Self { span: [from, to], candidate: Candidate { word, cost } }
    }
}

/// The words of what was heard, each in its place.
pub trait HeardWords {
    /// The words of a reading, each where it was heard.
    fn taken(&self, named: &NamedGrammar, reading: &Reading) -> Vec<Taken>;

    /// All words, each where it was heard: those of a slot together, or those of a graph that start at one place.
    fn groups(&self) -> Vec<Vec<Taken>>;

    /// Where a word was heard, in words.
    fn place(&self, span: [u32; 2]) -> String;
}

impl HeardWords for Heard {
    fn taken(&self, named: &NamedGrammar, reading: &Reading) -> Vec<Taken> {
        match self {
            Self::Slots(utterance) => {
                let words = (0..).zip(&utterance.slots).zip(named.words_of(reading));
                let taken = words.filter_map(|((number, slot), word)| {
                    let candidate = *slot.iter().find(|candidate| candidate.word == word)?;
                    Some(Taken { span: [number, number + 1], candidate })
                });
                taken.collect()
            }
            Self::Graph(graph) => reading.edges().iter().map(|&edge| graph.edges[edge as usize].into()).collect(),
        }
    }

    fn groups(&self) -> Vec<Vec<Taken>> {
        let redrawn;
        let graph = match self {
            Self::Graph(graph) => graph,
            Self::Slots(utterance) => {
                redrawn = Graph::from(utterance);
                &redrawn
            }
        };
        let started = |from| graph.edges.iter().filter(move |edge| edge.from == from).map(|edge| Taken::from(*edge));
        (0..graph.places).map(|from| started(from).collect()).filter(|group: &Vec<Taken>| !group.is_empty()).collect()
    }

    fn place(&self, [from, to]: [u32; 2]) -> String {
        match self {
            Self::Slots(_) => format!("slot {from}"),
            Self::Graph(_) => format!("{from} to {to}"),
        }
    }
}
