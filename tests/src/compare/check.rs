//! The comparison of the check.

use super::{Lent, Tally};
use crate::check::check;
use crate::seeded::damage::surplus;
use crate::seeded::rng::Rng;
use spireyerba::services;

/// Compares the answer, and that no slice was changed.
pub fn compare(rng: &mut Rng, tally: &mut Tally, blocks: [&[u8]; 3]) {
    let lent = blocks.map(|block| Lent::holding(rng, block));
    let before = lent.clone();
    let answer = services::check(lent[0].slice(), lent[1].slice(), lent[2].slice());
    tally.record(blocks, &answer);
    let expected = check(blocks[0], blocks[1], blocks[2]);
    assert_eq!(answer, expected, "answers of the library and of the second implementation\n{blocks:02x?}");
    assert!(lent == before, "a block was changed\n{blocks:02x?}");
}

/// Compares on a reading, and on the same with bytes behind it.
pub fn compare_with_surplus(rng: &mut Rng, tally: &mut Tally, [grammar, heard, reading]: [&[u8]; 3]) {
    compare(rng, tally, [grammar, heard, reading]);
    for longer in surplus(rng, reading) {
        compare(rng, tally, [grammar, heard, &longer]);
    }
}
