//! What was heard, as slots or as a word graph (document 02, N1), and the words that it offers (N3).

use crate::bits::BitReader;
use crate::{graph, graph_reading, nbest, reading, utterance};
use spireyerba::limits::{graph_reading_length, work_length};
use spireyerba::{Grammar, Graph, Heard, Refusal, Utterance};
use std::collections::HashMap;

/// Reads a block of either kind under a grammar, or refuses it with 11 to 16, 51 or 52. Kind 2 is of slots, kind 5 of a graph.
pub fn from_block(grammar: &Grammar, block: &[u8]) -> Result<Heard, Refusal> {
    if BitReader::new(block).field(4) == Some(graph::KIND) {
        graph::from_block(grammar, block).map(Heard::Graph)
    } else {
        utterance::from_block(grammar, block).map(Heard::Slots)
    }
}

/// Packs what was heard. Nothing is checked: numbers out of range make a block that is refused.
pub fn pack(grammar: &Grammar, heard: &Heard) -> Vec<u8> {
    match heard {
        Heard::Slots(utterance) => utterance::pack(grammar, utterance),
        Heard::Graph(graph) => graph::pack(grammar, graph),
    }
}

/// The bytes that each reading takes in the output of a listing.
pub fn reading_length(grammar: &Grammar, heard: &Heard) -> usize {
    let length = match heard {
        Heard::Slots(_) => spireyerba::limits::reading_length,
        Heard::Graph(_) => graph_reading_length,
    };
    length(heard.longest(), grammar.rules.len())
}

/// The numbers of the work table and the bytes of the output that a listing of so many readings needs.
pub fn listing_lengths(grammar: &Grammar, heard: &Heard, wanted: u32) -> (usize, usize) {
    let wanted = wanted as usize;
    let work = work_length(grammar.symbols as usize, heard.longest(), wanted);
    (work, wanted * reading_length(grammar, heard))
}

/// The weights and the blocks of the `wanted` least readings, each of its own length.
pub fn least(grammar: &Grammar, heard: &Heard, wanted: usize) -> Vec<(u32, Vec<u8>)> {
    let readings = match heard {
        Heard::Slots(utterance) => nbest::least(grammar, utterance, wanted),
        Heard::Graph(graph) => nbest::least_of_graph(grammar, graph, wanted),
    };
    let pack = match heard {
        Heard::Slots(_) => reading::pack,
        Heard::Graph(_) => graph_reading::pack,
    };
    readings.into_iter().map(|found| (found.weight, pack(grammar, &found))).collect()
}

/// A word that is offered between two places.
#[derive(Clone, Copy, Debug)]
pub struct Offer {
    pub cost: u32,
    /// The number of its edge, or of its candidate among those of all slots.
    pub number: u32,
}

/// The words that are offered, by two places and the word. Those that were not heard are struck out.
///
/// Listing, check and enumeration all strike out first and then go by the rest of the documents alone.
pub struct Offers {
    /// The place where a derivation ends. It starts at place 0.
    pub last: usize,
    words: HashMap<(usize, usize, u32), Offer>,
}

impl Offers {
    /// Place k is before slot k.
    pub fn of_slots(utterance: &Utterance) -> Self {
        let slots = utterance.slots.iter().enumerate();
        let words = slots.flat_map(|(slot, words)| words.iter().map(move |candidate| (slot, slot + 1, candidate)));
        let numbered = (0..).zip(words).filter(|(_, (.., candidate))| candidate.is_offered());
        let offers = numbered.map(|(number, (from, to, candidate))| {
            ((from, to, candidate.word), Offer { cost: candidate.cost, number })
        });
        Self { last: utterance.slots.len(), words: offers.collect() }
    }

    pub fn of_graph(graph: &Graph) -> Self {
        let numbered = (0..).zip(&graph.edges).filter(|(_, edge)| edge.is_offered());
        let offers = numbered.map(|(number, edge)| {
            ((edge.from as usize, edge.to as usize, edge.word), Offer { cost: edge.cost, number })
        });
        Self { last: graph.places as usize - 1, words: offers.collect() }
    }

    /// The offer of a word from one place to another, if there is one.
    pub fn get(&self, from: usize, to: usize, word: u32) -> Option<Offer> {
        self.words.get(&(from, to, word)).copied()
    }
}
