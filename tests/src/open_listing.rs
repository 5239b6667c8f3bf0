//! Readings one by one (document 02, N2), from the full list: a call after k readings hands out number k + 1 of it.
//!
//! And which ranks a work table shows to be found, and what they spell, as docs/ARCHITECTURE.md draws it.

use crate::graph_reading::{self, Node};
use crate::{grammar, heard, reading};
use spireyerba::limits::{work_length, MAX_READINGS};
use spireyerba::services::{Next, Place};
use spireyerba::{Body, Grammar, Heard, Reading, Refusal};

const RANKS: usize = MAX_READINGS as usize;

/// Two blocks that are accepted, with all readings that can be handed out.
pub struct Listed {
    pub grammar: Grammar,
    pub heard: Heard,
    /// Each with its zeros.
    pub readings: Vec<Vec<u8>>,
}

impl Listed {
    /// Refuses with 1 to 7 for the grammar, then with 11 to 16, 51 or 52.
    pub fn new(grammar: &[u8], heard: &[u8]) -> Result<Self, Refusal> {
        let grammar = grammar::from_block(grammar)?;
        let heard = heard::from_block(&grammar, heard)?;
        let length = heard::reading_length(&grammar, &heard);
        let mut readings: Vec<Vec<u8>> =
            heard::least(&grammar, &heard, RANKS).into_iter().map(|(_, reading)| reading).collect();
        readings.iter_mut().for_each(|reading| reading.resize(length, 0));
        Ok(Self { grammar, heard, readings })
    }

    /// The numbers of a work table with room for 256 readings.
    pub fn work_length(&self) -> usize {
        work_length(self.grammar.symbols as usize, self.heard.longest(), RANKS)
    }

    pub fn reading_length(&self) -> usize {
        heard::reading_length(&self.grammar, &self.heard)
    }

    /// "Opening refuses for the blocks, then with 22."
    pub fn open(&self, place: &mut Place, work: &mut [u32]) -> Result<(), Refusal> {
        self.takes_table(work.len())?;
        *place = Place { handed: 0, opened: 1 };
        work.fill(0);
        Ok(())
    }

    /// A call with a place and a table of so many numbers, as they were left: "22 for that table and 23 for one reading", then "full".
    pub fn next(&self, place: &mut Place, work_len: usize, out: &mut [u8]) -> Result<Next, Refusal> {
        self.takes_table(work_len)?;
        let reading = out.get_mut(..self.reading_length()).ok_or(Refusal::ListingOutput)?;
        if place.handed >= MAX_READINGS {
            return Ok(Next::Full);
        }
        let Some(next) = self.readings.get(place.handed as usize) else {
            return Ok(Next::NoMore);
        };
        reading.copy_from_slice(next);
        place.handed += 1;
        Ok(Next::Reading)
    }

    fn takes_table(&self, work_len: usize) -> Result<(), Refusal> {
        if work_len < self.work_length() {
            return Err(Refusal::ListingWork);
        }
        Ok(())
    }

    /// The spans and heads.
    pub fn cells(&self) -> usize {
        work_length(self.grammar.symbols as usize, self.heard.longest(), 1) / ENTRY
    }

    /// The most ranks that a call may find after it was handed out so many readings, over all spans and heads.
    pub fn most_found(&self, handed: u32) -> usize {
        match handed {
            0 => self.cells(),
            _ => 2 * self.heard.longest() - 1,
        }
    }

    /// How many ranks of each span and head a table shows to be found. First stands rank 0 of all, then of each its other
    /// ranks.
    pub fn found(&self, work: &[u32]) -> Vec<usize> {
        let mut found = vec![0; self.cells()];
        let entries = work[..self.work_length()].chunks_exact(ENTRY).map(|entry| price(entry) != 0);
        for (number, _) in entries.enumerate().filter(|(_, is_found)| *is_found) {
            let cell = if number < found.len() { number } else { (number - found.len()) / (RANKS - 1) };
            found[cell] += 1;
        }
        found
    }

    /// Where the back pointers of found leaves stand.
    pub fn leaves(&self, work: &[u32]) -> Vec<usize> {
        let is_word_rule = |rule: u32| matches!(self.grammar.rules.get(rule as usize), Some(rule) if matches!(rule.body, Body::Word(_)));
        let entries = work[..self.work_length()].chunks_exact(ENTRY).enumerate();
        let leaves = entries.filter(|(_, entry)| price(entry) != 0 && is_word_rule(entry[2] >> 21));
        leaves.map(|(number, _)| ENTRY * number + 2).collect()
    }

    /// Whether the first ranks of all spans and heads are as opening leaves them.
    pub fn front_is_zero(&self, work: &[u32]) -> bool {
        work[..ENTRY * self.cells()].iter().all(|number| *number == 0)
    }

    /// The reading that a rank of the whole spells in a table, of its own length, if numbers spell one at all; nothing if that rank
    /// is not found.
    pub fn spelled(&self, work: &[u32], rank: usize) -> Option<Option<Vec<u8>>> {
        let whole = Part { head: 0, from: 0, to: self.heard.longest(), rank };
        let Entry { price, .. } = self.entry(work, whole)?;
        let weight = ((price - 1) / WEIGHT_UNIT) as u32;
        let mut nodes = Vec::new();
        Some(self.trace(work, whole, &mut nodes).map(|()| match &self.heard {
            Heard::Slots(_) => {
                let walk = nodes.iter().map(|(rule, _)| *rule).collect();
                reading::pack(&self.grammar, &Reading::of_slots(weight, walk))
            }
            Heard::Graph(_) => {
                let edges = nodes.iter().filter(|(_, edge)| edge.is_some()).count() as u32;
                graph_reading::pack_nodes(&self.grammar, edges, weight, &nodes)
            }
        }))
    }

    /// Appends the nodes that a part spells, or nothing where a rank is not found or a number stands for nothing there.
    fn trace(&self, work: &[u32], part: Part, nodes: &mut Vec<Node>) -> Option<()> {
        let Entry { rule, split, left, right, .. } = self.entry(work, part)?;
        let Part { from, to, .. } = part;
        match self.grammar.rules.get(rule as usize)?.body {
            Body::Word(_) => nodes.push((rule, self.edge_over(from, to, left)?)),
            Body::Pair(first, second) => {
                if !(from + 1..to).contains(&split) {
                    return None;
                }
                nodes.push((rule, None));
                self.trace(work, Part { head: first, from, to: split, rank: left }, nodes)?;
                self.trace(work, Part { head: second, from: split, to, rank: right }, nodes)?;
            }
        }
        Some(())
    }

    /// The edge that a leaf over a span names, if there is such an edge; of slots no edge is named.
    fn edge_over(&self, from: usize, to: usize, number: usize) -> Option<Option<u32>> {
        let Heard::Graph(graph) = &self.heard else {
            return Some(None);
        };
        let edge = graph.edges.get(number)?;
        ((edge.from as usize, edge.to as usize) == (from, to)).then_some(Some(number as u32))
    }

    /// What stands in the entry of a part, if that is found.
    fn entry(&self, work: &[u32], Part { head, from, to, rank }: Part) -> Option<Entry> {
        let cell = (to * (to - 1) / 2 + from) * self.grammar.symbols as usize + head as usize;
        let number = if rank == 0 { cell } else { self.cells() + cell * (RANKS - 1) + rank - 1 };
        let entry = &work[ENTRY * number..][..ENTRY];
        let price = price(entry);
        let [split, left, right] = [16, 8, 0].map(|shift| (entry[2] >> shift) as usize);
        let found = Entry { price, rule: entry[2] >> 21, split: split & 0x1f, left: left & 0xff, right: right & 0xff };
        (price != 0).then_some(found)
    }
}

/// A rank of a head over a span.
#[derive(Clone, Copy)]
struct Part {
    head: u32,
    from: usize,
    to: usize,
    rank: usize,
}

/// A tree as an entry has it: its price plus 1, its rule, where its parts meet, and their ranks; a leaf's edge stands for the left
/// one.
struct Entry {
    price: u64,
    rule: u32,
    split: usize,
    left: usize,
    right: usize,
}

/// The numbers of an entry, the bits of the second that belong to the price, and what a weight of 1 adds to a price.
const ENTRY: usize = 4;
const PRICE_HIGH: u32 = 0x7ff;
const WEIGHT_UNIT: u64 = 24 << 16;

/// The price plus 1 of an entry's tree, 0 where none stands there.
fn price(entry: &[u32]) -> u64 {
    u64::from(entry[1] & PRICE_HIGH) << 32 | u64::from(entry[0])
}
