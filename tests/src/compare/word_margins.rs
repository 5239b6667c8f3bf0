//! The comparison of word margins.

use super::{Lent, Tally};
use crate::seeded::rng::Rng;
use crate::word_margins::{word_margins, Entry};
use spireyerba::services;

/// Compares the answer and every slice after the call, guards included; answers the entries, nothing if both refused. The output
/// and the work table hold noise before the call.
pub fn compare(
    rng: &mut Rng,
    tally: &mut Tally,
    blocks: [&[u8]; 2],
    work_len: usize,
    out_len: usize,
) -> Option<Vec<Entry>> {
    let lent = blocks.map(|block| Lent::holding(rng, block));
    let (mut work, mut out) = (Lent::noise(rng, work_len), Lent::noise(rng, out_len));
    let (before, mut expected_work, mut expected_out) = (lent.clone(), work.clone(), out.clone());
    let answer = services::word_margins(lent[0].slice(), lent[1].slice(), work.slice_mut(), out.slice_mut());
    tally.record(blocks, &answer);
    let expected = word_margins(blocks[0], blocks[1], expected_work.slice_mut(), expected_out.slice_mut());
    let context = || format!("{blocks:02x?}\nwork table of {work_len}, output of {out_len}");
    assert_eq!(answer, expected, "answers of the library and of the second implementation\n{}", context());
    assert!(out == expected_out, "output {:?}\nexpected {:?}\n{}", out.slice(), expected_out.slice(), context());
    assert!(work == expected_work, "the work table\n{}", context());
    assert!(lent == before, "a block was changed\n{}", context());
    let (entries, _) = out.slice().as_chunks();
    answer.ok().map(|count| entries[..count].to_vec())
}
