//! The comparison of the specimen.

use super::{Lent, Tally};
use crate::seeded::rng::Rng;
use crate::specimen::specimen;
use spireyerba::services;

/// Compares the answer and every slice after the call, guards included; answers whether there is a string, nothing if both
/// refused.
pub fn compare(rng: &mut Rng, tally: &mut Tally, grammar: &[u8], length: u32, out_len: usize) -> Option<bool> {
    let lent = Lent::holding(rng, grammar);
    let mut out = Lent::noise(rng, out_len);
    let (lent_before, mut expected_out) = (lent.clone(), out.clone());
    let answer = services::specimen(lent.slice(), length, out.slice_mut());
    tally.record((grammar, length), &answer);
    let expected = specimen(grammar, length, expected_out.slice_mut());
    let context = || format!("grammar {grammar:02x?}\nlength {length}, output length {out_len}");
    assert_eq!(answer, expected, "answers of the library and of the second implementation\n{}", context());
    assert!(out == expected_out, "output {:?}\nexpected {:?}\n{}", out.slice(), expected_out.slice(), context());
    assert!(lent == lent_before, "the grammar was changed\n{}", context());
    answer.ok()
}
