//! Ways to damage a block or a sheet.

use super::rng::{Noise, Rng};
use super::utterances::unheard;
use super::{graphs, raw};
use crate::grammar::{self, rule_width};
use crate::{graph, utterance};
use spireyerba::{Grammar, Graph, Utterance};

/// Every proper prefix.
pub fn truncations<T: Clone>(whole: &[T]) -> impl Iterator<Item = Vec<T>> + '_ {
    (0..whole.len()).map(|length| whole[..length].to_vec())
}

/// The whole with one or more numbers after it, zero and other, at times very many.
pub fn surplus<T: Noise>(rng: &mut Rng, whole: &[T]) -> Vec<Vec<T>> {
    let many = if rng.once_in(20) { 70_000 } else { 5 };
    let more = [vec![T::cut(0)], vec![T::cut(1)], vec![T::cut(0); many], rng.noise(1), rng.noise(9)];
    more.into_iter().map(|more| [whole, more.as_slice()].concat()).collect()
}

/// A block with one bit turned.
pub fn flipped(block: &[u8], bit: usize) -> Vec<u8> {
    let mut damaged = block.to_vec();
    damaged[bit / 8] ^= 0x80 >> (bit % 8);
    damaged
}

/// The block with one bit turned: each bit of its last byte, fill among them, and up to `most` others.
pub fn flips(rng: &mut Rng, block: &[u8], most: usize) -> Vec<Vec<u8>> {
    let others = 8 * block.len() - 8;
    let mut bits: Vec<usize> = (0..others).collect();
    if others > most {
        bits = (0..most).map(|_| rng.below(others)).collect();
    }
    bits.extend(others..others + 8);
    bits.into_iter().map(|bit| flipped(block, bit)).collect()
}

/// The block with one byte replaced: by zero, by all bits and by any, each byte in turn.
pub fn replaced_bytes(rng: &mut Rng, block: &[u8]) -> Vec<Vec<u8>> {
    let replaced = |at: usize, byte: u8| {
        let mut damaged = block.to_vec();
        damaged[at] = byte;
        damaged
    };
    (0..block.len()).flat_map(|at| [0, 0xff, rng.bits() as u8].map(|byte| replaced(at, byte))).collect()
}

/// The sheet with one number replaced by another at the end of some range, or near the one it replaces.
pub fn replaced(rng: &mut Rng, sheet: &[u32], at: usize) -> Vec<u32> {
    const ENDS: [u32; 21] =
        [0, 1, 2, 3, 4, 7, 8, 24, 25, 31, 32, 33, 199, 200, 201, 256, 257, 65_534, 65_535, 65_536, u32::MAX];
    let mut damaged = sheet.to_vec();
    let before = damaged[at];
    damaged[at] = match rng.below(4) {
        0 => before.wrapping_add(1),
        1 => before.wrapping_sub(1),
        // the same number to whoever looks at its low bits only
        2 => before.wrapping_add(1 << rng.within(5..=31)),
        _ => rng.pick(&ENDS),
    };
    damaged
}

/// A block as it is and in every way damaged.
pub fn blocks(rng: &mut Rng, block: &[u8], most_flips: usize) -> Vec<Vec<u8>> {
    let mut all = vec![block.to_vec()];
    all.extend(truncations(block));
    all.extend(surplus(rng, block));
    all.extend(flips(rng, block, most_flips));
    all
}

/// A sheet as it is and in every way damaged; up to `most` numbers are replaced.
pub fn sheets(rng: &mut Rng, sheet: &[u32], most: usize) -> Vec<Vec<u32>> {
    let mut all = vec![sheet.to_vec()];
    all.extend(truncations(sheet));
    all.extend(surplus(rng, sheet));
    for at in 0..most {
        let at = if sheet.len() <= most { at % sheet.len() } else { rng.below(sheet.len()) };
        all.push(replaced(rng, sheet, at));
    }
    all
}

/// The grammar with kind, head and body of one rule put in the place of another's, whose weight stays.
pub fn repeated_rule(rng: &mut Rng, grammar: &Grammar) -> Grammar {
    let mut damaged = grammar.clone();
    let (from, to) = (rng.below(grammar.rules.len()), rng.below(grammar.rules.len()));
    let weight = damaged.rules[to].weight;
    damaged.rules[to] = damaged.rules[from];
    damaged.rules[to].weight = weight;
    damaged
}

/// A number that some rule has, or one that its width can carry.
pub fn rule_number(rng: &mut Rng, grammar: &Grammar) -> u32 {
    if rng.once_in(4) {
        rng.within(0..=(1 << rule_width(grammar)) - 1)
    } else {
        rng.below(grammar.rules.len()) as u32
    }
}

/// Some damaged blocks of a grammar, of each kind of damage.
pub fn some_grammar_blocks(rng: &mut Rng, grammar: &Grammar, count: usize) -> Vec<Vec<u8>> {
    let mut some = some_blocks(rng, &grammar::pack(grammar), count);
    some.push(grammar::pack(&repeated_rule(rng, grammar)));
    some.push(raw::grammar_block(rng));
    some
}

/// Some damaged blocks of an utterance, of each kind of damage.
pub fn some_utterance_blocks(rng: &mut Rng, grammar: &Grammar, utterance: &Utterance, count: usize) -> Vec<Vec<u8>> {
    let mut some = some_blocks(rng, &utterance::pack(grammar, utterance), count);
    let slot = rng.below(utterance.slots.len());
    let word = rng.pick(&utterance.slots[slot]).word;
    some.push(utterance::pack(grammar, &unheard(utterance, slot, word)));
    some.push(raw::utterance_block(rng, grammar.words));
    some
}

/// The graph with places and word of one edge put in the place of another's, whose cost stays.
pub fn repeated_edge(rng: &mut Rng, graph: &Graph) -> Graph {
    let mut damaged = graph.clone();
    let (from, to) = (rng.below(graph.edges.len()), rng.below(graph.edges.len()));
    let cost = damaged.edges[to].cost;
    damaged.edges[to] = damaged.edges[from];
    damaged.edges[to].cost = cost;
    damaged
}

/// A block of a word graph as it is and damaged in every way, bit by bit and byte by byte.
pub fn graph_blocks(rng: &mut Rng, grammar: &Grammar, graph: &Graph, most_flips: usize) -> Vec<Vec<u8>> {
    let block = graph::pack(grammar, graph);
    let mut all = blocks(rng, &block, most_flips);
    all.extend(replaced_bytes(rng, &block));
    let number = rng.below(graph.edges.len());
    for other in [repeated_edge(rng, graph), graphs::unheard(graph, number)] {
        all.push(graph::pack(grammar, &other));
    }
    all.push(raw::graph_block(rng, grammar.words));
    all
}

/// Blocks of a grammar and of what was heard, of which one is damaged: each of these grammars with what was heard, and the grammar
/// with each of these.
pub fn with_one_damaged(
    [grammar, heard]: &[Vec<u8>; 2],
    grammars: Vec<Vec<u8>>,
    damaged: Vec<Vec<u8>>,
) -> Vec<[Vec<u8>; 2]> {
    let with_grammars = grammars.into_iter().map(|other| [other, heard.clone()]);
    with_grammars.chain(damaged.into_iter().map(|other| [grammar.clone(), other])).collect()
}

fn some_blocks(rng: &mut Rng, block: &[u8], count: usize) -> Vec<Vec<u8>> {
    let damaged = blocks(rng, block, 60);
    (0..count).map(|_| damaged[rng.below(damaged.len())].clone()).collect()
}
