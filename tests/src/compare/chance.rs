//! The comparison of the chance.

use super::{Lent, Tally};
use crate::chance::chance;
use crate::seeded::rng::Rng;
use spireyerba::services;

/// Compares the answer, the float bit for bit, and that no slice was changed; answers the chance, nothing if both refused. The
/// float holds noise before the call.
pub fn compare(rng: &mut Rng, tally: &mut Tally, blocks: [&[u8]; 3], shares: &[u32]) -> Option<f64> {
    let lent = blocks.map(|block| Lent::holding(rng, block));
    let lent_shares = Lent::holding(rng, shares);
    let (before, shares_before) = (lent.clone(), lent_shares.clone());
    // between numbers that no call may touch
    let mut floats = [(); 3].map(|()| f64::from_bits(rng.bits()));
    let mut expected_floats = floats;
    let [grammar, heard, reading] = &lent;
    let answer = services::chance(grammar.slice(), heard.slice(), reading.slice(), lent_shares.slice(), &mut floats[1]);
    tally.record((blocks, shares), &answer);
    let expected = chance(blocks[0], blocks[1], blocks[2], shares, &mut expected_floats[1]);
    let context = || format!("{blocks:02x?}\nshares {shares:?}");
    assert_eq!(answer, expected, "answers of the library and of the second implementation\n{}", context());
    let bits = |floats: [f64; 3]| floats.map(f64::to_bits);
    assert_eq!(bits(floats), bits(expected_floats), "floats before, at and behind the chance\n{}", context());
    assert!(lent == before && lent_shares == shares_before, "a slice was changed\n{}", context());
    answer.ok().map(|()| floats[1])
}
