//! The blocks of readings of word graphs (document 02, N1).

use crate::bits::{BitReader, BitWriter};
use crate::grammar::rule_width;
use spireyerba::limits::nodes;
use spireyerba::{Body, Grammar, Graph, Reading, Refusal};

pub const KIND: u32 = 6;
const WEIGHT_WIDTH: usize = 24;
const EDGE_NUMBER_WIDTH: usize = 7;

/// A node of a walk as it is written: the number of its rule and, behind that of a word rule, the number of an edge.
pub type Node = (u32, Option<u32>);

/// The nodes of a reading. Nothing is checked: where edges are missing none is written.
pub fn nodes_of(grammar: &Grammar, reading: &Reading) -> Vec<Node> {
    let mut path = reading.edges().iter().copied();
    let node = |&rule: &u32| (rule, if is_word_rule(grammar, rule) { path.next() } else { None });
    reading.walk.iter().map(node).collect()
}

/// Packs a reading, of its own length. Nothing is checked: numbers out of range are cut to their width.
pub fn pack(grammar: &Grammar, reading: &Reading) -> Vec<u8> {
    pack_nodes(grammar, reading.edges().len() as u32, reading.weight, &nodes_of(grammar, reading))
}

/// Packs any numbers as a reading.
pub fn pack_nodes(grammar: &Grammar, edges: u32, weight: u32, nodes: &[Node]) -> Vec<u8> {
    let mut writer = BitWriter::default();
    writer.field(4, KIND);
    writer.field(6, edges);
    writer.field(WEIGHT_WIDTH, weight);
    for &(rule, edge) in nodes {
        writer.field(rule_width(grammar), rule);
        if let Some(edge) = edge {
            writer.field(EDGE_NUMBER_WIDTH, edge);
        }
    }
    writer.finish()
}

/// A reading's numbers, not yet held to the grammar and the graph.
pub struct Fields {
    pub weight: u32,
    /// The rules and the edges, if there are as many word rules as the reading says (else 34), and whether only fill is left
    /// behind them (else 36).
    pub numbers: Option<(Vec<u32>, Vec<u32>, bool)>,
}

/// Reads all fields, or refuses with 31 to 33.
pub fn from_block(grammar: &Grammar, graph: &Graph, block: &[u8]) -> Result<Fields, Refusal> {
    let mut reader = BitReader::new(block);
    let mut field = |width| reader.field(width).ok_or(Refusal::ReadingEnd);
    if field(4)? != KIND {
        return Err(Refusal::ReadingKind);
    }
    let edges = field(6)?;
    if !(1..graph.places).contains(&edges) {
        return Err(Refusal::ReadingSlots);
    }
    let weight = field(WEIGHT_WIDTH)?;
    let bits = 34 + nodes(edges as usize) * rule_width(grammar) + edges as usize * EDGE_NUMBER_WIDTH;
    if 8 * block.len() < bits {
        return Err(Refusal::ReadingEnd);
    }
    let numbers = numbers(grammar, edges as usize, &mut reader);
    Ok(Fields { weight, numbers: numbers.map(|(walk, path)| (walk, path, reader.only_fill_left())) })
}

/// The rules of as many nodes as a path of so many edges needs, and the edges behind the word rules among them, if there are so
/// many. With more word rules than that the bits may end too early.
fn numbers(grammar: &Grammar, edges: usize, reader: &mut BitReader) -> Option<(Vec<u32>, Vec<u32>)> {
    let (mut walk, mut path) = (Vec::new(), Vec::new());
    for _ in 0..nodes(edges) {
        let rule = reader.field(rule_width(grammar))?;
        walk.push(rule);
        if is_word_rule(grammar, rule) {
            path.push(reader.field(EDGE_NUMBER_WIDTH)?);
        }
    }
    (path.len() == edges).then_some((walk, path))
}

/// The reading of a block of a derivation, with or without zeros behind it.
pub fn of_listed(grammar: &Grammar, graph: &Graph, block: &[u8]) -> Reading {
    let fields = from_block(grammar, graph, block).expect("a reading");
    let (walk, path, _) = fields.numbers.expect("a walk with its edges");
    Reading::of_path(fields.weight, walk, path)
}

fn is_word_rule(grammar: &Grammar, number: u32) -> bool {
    grammar.rules.get(number as usize).is_some_and(|rule| matches!(rule.body, Body::Word(_)))
}
