//! The comparison of the listing, the library's and the panel's.

use super::{over_seeds, Lent, Tally};
use crate::both::Listing;
use crate::listing::{listing, panel_listing};
use crate::seeded::parsable::wanted;
use crate::seeded::rng::Rng;
use crate::{grammar, heard};
use spireyerba::Refusal::{ListingOutput, ListingWanted, ListingWork};
use spireyerba::{services, Grammar, Heard};
use std::ops::Range;

/// What a listing is asked for and lent.
#[derive(Clone, Debug)]
pub struct Call<'a> {
    pub grammar: &'a [u8],
    pub utterance: &'a [u8],
    pub wanted: u32,
    pub work_len: usize,
    pub out_len: usize,
}

/// Compares the answer and every slice after the call, guards included; answers how many readings both found, nothing if they refused.
pub fn compare(rng: &mut Rng, tally: &mut Tally, call: &Call) -> Option<usize> {
    compare_services(rng, tally, call, [services::listing, listing])
}

/// The same of the panel's listing.
pub fn compare_panel(rng: &mut Rng, tally: &mut Tally, call: &Call) -> Option<usize> {
    compare_services(rng, tally, call, [services::panel_listing, panel_listing])
}

/// Compares two services on the same slices.
pub fn compare_services(rng: &mut Rng, tally: &mut Tally, call: &Call, services: [Listing; 2]) -> Option<usize> {
    let [ours, other] = services;
    let blocks = [call.grammar, call.utterance].map(|block| Lent::holding(rng, block));
    let (mut work, mut out) = (Lent::noise(rng, call.work_len), Lent::noise(rng, call.out_len));
    let (blocks_before, mut expected_work, mut expected_out) = (blocks.clone(), work.clone(), out.clone());
    let [grammar, utterance] = &blocks;
    let answer = ours(grammar.slice(), utterance.slice(), call.wanted, work.slice_mut(), out.slice_mut());
    tally.record((call.grammar, call.utterance, call.wanted), &answer);
    let expected =
        other(call.grammar, call.utterance, call.wanted, expected_work.slice_mut(), expected_out.slice_mut());
    assert_eq!(answer, expected, "answers of both\n{call:02x?}");
    assert!(out == expected_out, "output {:02x?}\nexpected {:02x?}\n{call:02x?}", out.slice(), expected_out.slice());
    let differs = || work.slice().iter().zip(expected_work.slice()).position(|(found, expected)| found != expected);
    assert!(work == expected_work, "the work table differs at {:?}\n{call:02x?}", differs());
    assert!(blocks == blocks_before, "a block was changed\n{call:02x?}");
    answer.ok()
}

/// Lists that were empty, that ended early, and that were as long as was wanted.
#[derive(Debug, Default)]
pub struct Lists {
    pub empty: usize,
    pub short: usize,
    pub full: usize,
}

impl Lists {
    fn record(&mut self, found: usize, wanted: u32) {
        match found {
            0 => self.empty += 1,
            _ if found < wanted as usize => self.short += 1,
            _ => self.full += 1,
        }
    }
}

/// Compares a listing for each seed, of what is drawn and of so many readings, with slices that are exact or longer and full of
/// noise. All are accepted, and so many at least are different.
pub fn compare_accepted(
    seeds: Range<u64>,
    different: usize,
    mut draw: impl FnMut(&mut Rng) -> (Grammar, Heard, u32),
) -> Lists {
    let (mut tally, mut lists) = (Tally::default(), Lists::default());
    over_seeds(seeds, |rng| {
        let (grammar, heard, wanted) = draw(rng);
        let (work, out) = heard::listing_lengths(&grammar, &heard, wanted);
        let call = Call {
            grammar: &grammar::pack(&grammar),
            utterance: &heard::pack(&grammar, &heard),
            wanted,
            work_len: work + rng.pick(&[0, 0, 1, 50]),
            out_len: out + rng.pick(&[0, 0, 1, 50]),
        };
        let found = compare(rng, &mut tally, &call);
        lists.record(found.expect("an accepted listing"), wanted);
    });
    tally.demand(different, &[]);
    lists
}

/// Compares listings for each seed with slices of which one or both are one short, and of numbers of readings that cannot be
/// wanted.
pub fn compare_short_and_out_of_range(seeds: Range<u64>, draw: impl Fn(&mut Rng) -> (Grammar, Heard)) {
    let mut tally = Tally::default();
    over_seeds(seeds, |rng| {
        let (grammar, heard) = draw(rng);
        let (grammar_block, heard_block) = (grammar::pack(&grammar), heard::pack(&grammar, &heard));
        let wanted = wanted(rng);
        let (work, out) = heard::listing_lengths(&grammar, &heard, wanted);
        let sizes = [(wanted, work - 1, out), (wanted, work, out - 1), (wanted, work - 1, out - 1), (wanted, 0, 0)];
        let wild = [0, 257, 258, u32::MAX].map(|wanted| (wanted, work, rng.below(out)));
        for (wanted, work_len, out_len) in sizes.into_iter().chain(wild) {
            let call = Call { grammar: &grammar_block, utterance: &heard_block, wanted, work_len, out_len };
            compare(rng, &mut tally, &call);
        }
    });
    tally.demand(2_000, &[ListingWanted, ListingWork, ListingOutput]);
}

/// Compares listings of small blocks that may be damaged: one of few readings, with room for most that are accepted, and one of
/// none.
pub fn compare_damaged(rng: &mut Rng, tally: &mut Tally, [grammar, utterance]: &[Vec<u8>; 2]) {
    let call = Call { grammar, utterance, wanted: rng.within(1..=4), work_len: 60_000, out_len: 292 };
    compare(rng, tally, &call);
    compare(rng, tally, &Call { wanted: 0, work_len: 0, out_len: 0, ..call });
}
