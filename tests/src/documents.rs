//! Blocks of documents 01 and 02 that tests of several services start from.

use crate::{grammar, utterance};
use spireyerba::{Candidate, Grammar, Utterance};

/// Document 01's G: 0 to 0 0, weight 1; 0 to word 0, weight 0.
pub const G: [u8; 9] = [0x10, 0x40, 0x40, 0x40, 0x00, 0x09, 0x00, 0x00, 0x00];
/// Document 01's U: four slots, each word 0 at cost 0.
pub const U: [u8; 12] = [0x21, 0x08, 0x00, 0x00, 0x80, 0x00, 0x08, 0x00, 0x00, 0x80, 0x00, 0x00];
/// Document 02's graph of four edges: places 0 to 3, with edges 0 to 1, 1 to 2, 0 to 2 at cost 3, 2 to 3.
pub const TWO_LENGTHS: [u8; 16] =
    [0x52, 0x04, 0x00, 0x40, 0x00, 0x01, 0x10, 0x00, 0x00, 0x02, 0x00, 0x01, 0x88, 0x60, 0x00, 0x00];

/// Document 01's fifth P grammar, and its two slots of two words each, all at cost 0.
pub const FIFTH: [u8; 17] =
    [0x10, 0xc1, 0x00, 0xa0, 0x00, 0x01, 0xa8, 0x00, 0x29, 0x40, 0x00, 0xdc, 0x00, 0x03, 0x60, 0x00, 0x3c];
pub const FIFTH_AT_0: [u8; 11] = [0x20, 0x90, 0x00, 0x00, 0x80, 0x00, 0x28, 0x00, 0x03, 0x00, 0x00];

/// G as a value.
pub fn g() -> Grammar {
    grammar::from_block(&G).expect("document 01's grammar")
}

/// So many slots of word 0 at cost 0.
pub fn slots_of_g(count: usize) -> Utterance {
    Utterance { slots: vec![vec![Candidate { word: 0, cost: 0 }]; count] }
}

/// Their block.
pub fn block_of_slots(count: usize) -> Vec<u8> {
    utterance::pack(&g(), &slots_of_g(count))
}
