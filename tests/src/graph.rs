//! The blocks of word graphs (document 02, N1).

use crate::bits::{BitReader, BitWriter};
use crate::grammar::word_width;
use spireyerba::limits::{MAX_EDGES, MAX_PLACES};
use spireyerba::{Candidate, Edge, Grammar, Graph, Refusal, Utterance};
use std::collections::HashSet;
use std::ops::RangeInclusive;

pub const KIND: u32 = 5;
const COST_WIDTH: usize = 16;

/// Reads a block under a grammar, or refuses it with 11 to 14, 16, 51 or 52.
pub fn from_block(grammar: &Grammar, block: &[u8]) -> Result<Graph, Refusal> {
    let mut reader = BitReader::new(block);
    let mut field = |width| reader.field(width).ok_or(Refusal::UtteranceEnd);
    if field(4)? != KIND {
        return Err(Refusal::UtteranceKind);
    }
    let places = within(2..=MAX_PLACES, field(5)?)?;
    let count = within(1..=MAX_EDGES, field(7)?)?;
    let (mut edges, mut seen) = (Vec::new(), HashSet::new());
    for _ in 0..count {
        let (from, to) = (field(5)?, field(5)?);
        if from >= to || to >= places {
            return Err(Refusal::EdgePlaces);
        }
        let word = field(word_width(grammar))?;
        if word >= grammar.words {
            return Err(Refusal::UtteranceWord);
        }
        let cost = field(COST_WIDTH)?;
        if !seen.insert((from, to, word)) {
            return Err(Refusal::EdgeRepeat);
        }
        edges.push(Edge { from, to, word, cost });
    }
    if !reader.only_fill_left() {
        return Err(Refusal::UtteranceFill);
    }
    Ok(Graph { places, edges })
}

/// Packs a graph. Nothing is checked: numbers out of range make a block that is refused.
pub fn pack(grammar: &Grammar, graph: &Graph) -> Vec<u8> {
    let mut writer = BitWriter::default();
    writer.field(4, KIND);
    writer.field(5, graph.places);
    writer.field(7, graph.edges.len() as u32);
    for edge in &graph.edges {
        writer.field(5, edge.from);
        writer.field(5, edge.to);
        writer.field(word_width(grammar), edge.word);
        writer.field(COST_WIDTH, edge.cost);
    }
    writer.finish()
}

/// The utterance that offers just the words of a path, given by the numbers of its edges; nothing if they are no path from
/// place 0 to the last place. A word that was not heard stays one.
pub fn slots_of_path(graph: &Graph, path: &[u32]) -> Option<Utterance> {
    let (mut place, mut slots) = (0, Vec::new());
    for &number in path {
        let edge = graph.edges.get(number as usize).filter(|edge| edge.from == place)?;
        slots.push(vec![Candidate { word: edge.word, cost: edge.cost }]);
        place = edge.to;
    }
    (place + 1 == graph.places).then_some(Utterance { slots })
}

/// Every path from place 0 to the last place, by the numbers of its edges, over words that were heard; nothing if there are
/// more than `most`.
pub fn paths(graph: &Graph, most: usize) -> Option<Vec<Vec<u32>>> {
    let (mut whole, mut begun) = (Vec::new(), vec![(0, Vec::new())]);
    while let Some((place, path)) = begun.pop() {
        if place + 1 == graph.places {
            whole.push(path);
        } else {
            let offered = (0..).zip(&graph.edges).filter(|(_, edge)| edge.from == place && edge.is_offered());
            begun.extend(offered.map(|(number, edge)| (edge.to, [path.as_slice(), &[number]].concat())));
        }
        if whole.len() + begun.len() > most {
            return None;
        }
    }
    Some(whole)
}

fn within(range: RangeInclusive<u32>, number: u32) -> Result<u32, Refusal> {
    if range.contains(&number) {
        Ok(number)
    } else {
        Err(Refusal::UtteranceRange)
    }
}
