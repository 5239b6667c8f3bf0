//! Readings as values.

use crate::fields::{Fields, Packer};
use crate::limits::{nodes, width, EDGE_NUMBER_WIDTH, KIND_WIDTH, READING_SLOTS_WIDTH, READING_WEIGHT_WIDTH};
use crate::services::check;
use crate::{Body, Grammar, Refusal};

/// The kind of a reading's block, of slots and of a word graph.
const KIND: u32 = 3;
const GRAPH_KIND: u32 = 6;

/// A derivation written down: which rules it uses, and in a word graph which path its words are on.
#[derive(Clone, Debug, Default, PartialEq, Eq, Hash)]
pub struct Reading {
    /// The sum of the rules' weights and of the words' costs.
    pub weight: u32,
    /// The rule number of each node: a node, its left part, its right part. A path of n edges has 2n − 1 nodes, so readings of
    /// one word graph may be of different lengths.
    pub walk: Vec<u32>,
    /// Of a word graph the number of each word's edge, from place 0 to the last place; of slots nothing.
    pub path: Option<Vec<u32>>,
}

impl Reading {
    /// A reading of slots.
    pub fn of_slots(weight: u32, walk: Vec<u32>) -> Self {
        Self { weight, walk, path: None }
    }

    /// A reading of a path through a word graph.
    pub fn of_path(weight: u32, walk: Vec<u32>, path: Vec<u32>) -> Self {
        Self { weight, walk, path: Some(path) }
    }

    /// The numbers of the edges that its words are on; none of slots.
    pub fn edges(&self) -> &[u32] {
        self.path.as_deref().unwrap_or_default()
    }

    /// The reading of a block that the library accepted or wrote under a grammar, with or without zeros behind it.
    pub(crate) fn of_accepted(block: &[u8], grammar: &Grammar) -> Self {
        let mut reading = Self::default();
        reading.unpack(block, grammar);
        reading
    }

    /// Puts the reading of such a block in the place of this one, in the memory that it has.
    pub(crate) fn unpack(&mut self, block: &[u8], grammar: &Grammar) {
        let mut fields = Fields::new(block);
        let of_graph = fields.take(KIND_WIDTH) == GRAPH_KIND;
        let leaves = fields.take(READING_SLOTS_WIDTH) as usize;
        self.weight = fields.take(READING_WEIGHT_WIDTH);
        let rule_width = rule_width(grammar);
        let mut path = self.path.take().filter(|_| of_graph).unwrap_or_default();
        self.walk.clear();
        path.clear();
        for _ in 0..nodes(leaves) {
            let rule = fields.take(rule_width);
            self.walk.push(rule);
            if of_graph && is_word_rule(grammar, rule) {
                path.push(fields.take(EDGE_NUMBER_WIDTH));
            }
        }
        self.path = of_graph.then_some(path);
    }

    /// Unpacks a block under a grammar and an utterance or a word graph, given as their blocks, if it passes [`check`], or
    /// refuses it as that does.
    pub fn from_block(grammar: &[u8], heard: &[u8], block: &[u8]) -> Result<Self, Refusal> {
        check(grammar, heard, block)?;
        Ok(Self::of_accepted(block, &Grammar::from_block(grammar)?))
    }

    /// Packs the reading under a grammar, right or wrong: [`check`] says which. Refuses only what no block has room for: with
    /// [`Refusal::ReadingSlots`] too many nodes or edges, with [`Refusal::ReadingWalk`] a rule number, with
    /// [`Refusal::ReadingWeight`] a weight. That of a path is refused with [`Refusal::ReadingWalk`] too for a rule that the
    /// grammar does not have, an edge number of more than seven bits, and more or fewer edges than there are word rules.
    ///
    /// ```
    /// use spireyerba::{Body, Edge, Grammar, Graph, Reading, Rule};
    ///
    /// let rule = |body| Rule { head: 0, weight: 1, body };
    /// let grammar = Grammar { symbols: 1, words: 1, rules: vec![rule(Body::Pair(0, 0)), rule(Body::Word(0))] };
    /// let of_slots = Reading::of_slots(3, vec![0, 1, 0, 1, 0, 1, 1]);
    /// assert_eq!(of_slots.to_block(&grammar)?, [0x31, 0x00, 0x00, 0x00, 0xd5, 0x80]);
    ///
    /// let graph = Graph { places: 3, edges: [0, 1].map(|from| Edge { from, to: from + 1, word: 0, cost: 4 }).into() };
    /// let [grammar_block, graph_block] = [grammar.to_block()?, graph.to_block(&grammar.to_block()?)?];
    /// let of_path = Reading::of_path(11, vec![0, 1, 1], vec![0, 1]);
    /// let block = of_path.to_block(&grammar)?;
    /// assert_eq!(Reading::from_block(&grammar_block, &graph_block, &block)?, of_path);
    /// # Ok::<(), spireyerba::Refusal>(())
    /// ```
    pub fn to_block(&self, grammar: &Grammar) -> Result<Vec<u8>, Refusal> {
        let (kind, leaves) = match &self.path {
            None => (KIND, self.walk.len() / 2 + 1),
            Some(path) => (GRAPH_KIND, path.len()),
        };
        fits(leaves as u32, READING_SLOTS_WIDTH, Refusal::ReadingSlots)?;
        let mut packer = Packer::default();
        packer.put(KIND_WIDTH, kind);
        packer.put(READING_SLOTS_WIDTH, leaves as u32);
        let weight = fits(self.weight, READING_WEIGHT_WIDTH, Refusal::ReadingWeight);
        packer.put(READING_WEIGHT_WIDTH, weight.map_or(0, |()| self.weight));
        match &self.path {
            None => self.pack_rules(grammar, &mut packer)?,
            Some(path) => self.pack_on_path(grammar, path, &mut packer)?,
        }
        weight.map(|()| packer.finish())
    }

    /// Packs the rules.
    fn pack_rules(&self, grammar: &Grammar, packer: &mut Packer) -> Result<(), Refusal> {
        let rule_width = rule_width(grammar);
        self.walk.iter().try_for_each(|&rule| {
            fits(rule, rule_width, Refusal::ReadingWalk)?;
            packer.put(rule_width, rule);
            Ok(())
        })
    }

    /// Packs the rules, and behind each word rule the number of an edge.
    fn pack_on_path(&self, grammar: &Grammar, path: &[u32], packer: &mut Packer) -> Result<(), Refusal> {
        let (rule_width, mut path) = (rule_width(grammar), path.iter());
        for &rule in &self.walk {
            if rule as usize >= grammar.rules.len() {
                return Err(Refusal::ReadingWalk);
            }
            packer.put(rule_width, rule);
            if is_word_rule(grammar, rule) {
                let edge = *path.next().ok_or(Refusal::ReadingWalk)?;
                fits(edge, EDGE_NUMBER_WIDTH, Refusal::ReadingWalk)?;
                packer.put(EDGE_NUMBER_WIDTH, edge);
            }
        }
        path.next().map_or(Ok(()), |_| Err(Refusal::ReadingWalk))
    }
}

/// The bits of a rule's number.
fn rule_width(grammar: &Grammar) -> usize {
    width((grammar.rules.len() as u32).saturating_sub(1))
}

/// Whether a rule that the grammar has is one of a word.
fn is_word_rule(grammar: &Grammar, rule: u32) -> bool {
    matches!(grammar.rules[rule as usize].body, Body::Word(_))
}

/// Refuses a number that passes its field.
fn fits(number: u32, bits: usize, refusal: Refusal) -> Result<(), Refusal> {
    if width(number) <= bits {
        Ok(())
    } else {
        Err(refusal)
    }
}
