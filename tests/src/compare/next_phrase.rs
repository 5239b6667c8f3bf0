//! The comparison of the next phrase.

use super::{Lent, Tally};
use crate::seeded::rng::Rng;
use crate::specimen::next_phrase;
use spireyerba::services;

/// Compares the answer and every slice after a call with this output, guards included; answers whether there is a string,
/// nothing if both refused.
pub fn compare(
    rng: &mut Rng,
    tally: &mut Tally,
    grammar: &[u8],
    length: u32,
    first: bool,
    held: &[u8],
) -> Option<bool> {
    let lent = Lent::holding(rng, grammar);
    let mut out = Lent::holding(rng, held);
    let (lent_before, mut expected_out) = (lent.clone(), out.clone());
    let answer = services::next_phrase(lent.slice(), length, first, out.slice_mut());
    tally.record((grammar, length, first, held), &answer);
    let expected = next_phrase(grammar, length, first, expected_out.slice_mut());
    let context = || format!("grammar {grammar:02x?}\nlength {length}, first {first}, output {held:?}");
    assert_eq!(answer, expected, "answers of the library and of the second implementation\n{}", context());
    assert!(out == expected_out, "output {:?}\nexpected {:?}\n{}", out.slice(), expected_out.slice(), context());
    assert!(lent == lent_before, "the grammar was changed\n{}", context());
    answer.ok()
}
