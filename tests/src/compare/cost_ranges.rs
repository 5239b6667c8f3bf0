//! The comparison of costs known within ranges.

use super::{Lent, Tally};
use crate::cost_ranges::cost_ranges;
use crate::seeded::rng::Rng;
use spireyerba::services::{self, FirstReading};

/// Compares the answer, both numbers and every slice after the call, guards included; answers what both said, nothing if they
/// refused. The numbers and the work table hold noise before the call.
pub fn compare(
    rng: &mut Rng,
    tally: &mut Tally,
    blocks: [&[u8]; 3],
    work_len: usize,
) -> Option<(FirstReading, [u32; 2])> {
    let lent = blocks.map(|block| Lent::holding(rng, block));
    let mut work = Lent::noise(rng, work_len);
    let mut weights: Vec<u32> = rng.noise(5);
    let (before, mut expected_work, mut expected_weights) = (lent.clone(), work.clone(), weights.clone());
    let [grammar, low, high] = &lent;
    // between numbers that no call may touch
    let [_, least, _, greatest, _] = &mut weights[..] else { unreachable!("five numbers") };
    let answer = services::cost_ranges(grammar.slice(), low.slice(), high.slice(), work.slice_mut(), least, greatest);
    tally.record(blocks, &answer);
    let [_, least, _, greatest, _] = &mut expected_weights[..] else { unreachable!("five numbers") };
    let expected = cost_ranges(blocks[0], blocks[1], blocks[2], expected_work.slice_mut(), least, greatest);
    let context = || format!("{blocks:02x?}\nwork table of {work_len}");
    assert_eq!(answer, expected, "answers of the library and of the second implementation\n{}", context());
    assert_eq!(weights, expected_weights, "the numbers at, between and around both weights\n{}", context());
    assert!(work == expected_work, "the work table\n{}", context());
    assert!(lent == before, "a block was changed\n{}", context());
    answer.ok().map(|first| (first, [weights[1], weights[3]]))
}
