//! Readings one by one (document 02, N2): the examples, sequences of calls beside the full list, places and tables that were
//! altered, damaged blocks, and buffers of all lengths full of noise.

use spireyerba::limits::MAX_READINGS;
use spireyerba::services::{self, Next, Place};
use spireyerba::Heard;
use spireyerba::Refusal::{self, *};
use spireyerba_tests::compare::open_listing::{compare_next, compare_open, expect_sound, State};
use spireyerba_tests::compare::{over_seeds, Tally};
use spireyerba_tests::documents::{block_of_slots, FIFTH, FIFTH_AT_0, G, TWO_LENGTHS, U};
use spireyerba_tests::open_listing::Listed;
use spireyerba_tests::refusal::{GRAMMAR_BLOCK, GRAPH_BLOCK, UTTERANCE_BLOCK};
use spireyerba_tests::seeded::damage::{graph_blocks, some_grammar_blocks, some_utterance_blocks, with_one_damaged};
use spireyerba_tests::seeded::parsable::{case, graph_case, graph_of, heard_case, utterance_of, Shape};
use spireyerba_tests::seeded::parsable::{AMBIGUOUS, GREATEST, LONG, MANY_SYMBOLS, SPARSE, TINY};
use spireyerba_tests::seeded::rng::Rng;
use spireyerba_tests::{grammar, heard, utterance};

/// Opens a listing and takes all of it; answers how many ranks each call found, of slices with just the room that they need.
fn found_by_calls(grammar: &[u8], heard: &[u8], work_len: usize, out_len: usize) -> Vec<usize> {
    let (rng, mut tally, listed) = (&mut Rng::new(1), Tally::default(), Listed::new(grammar, heard));
    let mut state = State::noise(rng, work_len);
    assert!(compare_open(rng, &mut tally, [grammar, heard], &listed, &mut state));
    let mut found = Vec::new();
    loop {
        match compare_next(rng, &mut tally, [grammar, heard], &listed, &mut state, out_len) {
            (Some(Next::Reading), ranks) => found.push(ranks),
            (answer, _) => {
                assert_eq!(answer, Some(Next::NoMore));
                return found;
            }
        }
    }
}

#[test]
fn document_02s_examples() {
    assert_eq!(found_by_calls(&G, &U, 10_240, 6), [10, 2, 1, 1, 2]);
    assert_eq!(found_by_calls(&G, &TWO_LENGTHS, 6_144, 8), [6, 1, 2]);
    assert_eq!(found_by_calls(&FIFTH, &FIFTH_AT_0, 9_216, 6), [3, 3, 1, 1]);
    let six = found_by_calls(&G, &block_of_slots(6), 21_504, 6);
    assert_eq!((six.len(), six[0], six.iter().sum::<usize>()), (42, 21, 104));
}

#[test]
fn lengths_and_refusals_of_the_examples() {
    let (mut place, mut work, mut out) = (Place { handed: 7, opened: 9 }, vec![7; 10_240], [7; 6]);
    let expect = |place: &mut Place, work: &mut [u32], out: &mut [u8], answer: Result<Next, Refusal>| {
        let before = (*place, work.to_vec(), out.to_vec());
        assert_eq!(services::next(&G, &U, place, work, out), answer);
        assert_eq!((*place, work.to_vec(), out.to_vec()), before, "{answer:?} changes nothing");
    };
    assert_eq!(services::open(&G, &U, &mut place, &mut work[..10_239]), Err(ListingWork));
    assert_eq!((place, work[0]), (Place { handed: 7, opened: 9 }, 7));
    // a place that was never opened: neither these numbers nor zeros spell a reading
    place = Place::default();
    expect(&mut place, &mut work, &mut out, Err(AlteredWalk));
    work.fill(0);
    expect(&mut place, &mut work, &mut out, Err(AlteredWalk));
    assert_eq!(services::open(&G, &U, &mut place, &mut work), Ok(()));
    assert_eq!((place, work.iter().all(|number| *number == 0)), (Place { handed: 0, opened: 1 }, true));
    expect(&mut place, &mut work[..10_239], &mut out, Err(ListingWork));
    expect(&mut place, &mut work[..10_239], &mut out[..5], Err(ListingWork));
    expect(&mut place, &mut work, &mut out[..5], Err(ListingOutput));
    for handed in [256, 257, u32::MAX] {
        place = Place { handed, opened: 1 };
        expect(&mut place, &mut work, &mut out, Ok(Next::Full));
        expect(&mut place, &mut work, &mut out[..5], Err(ListingOutput));
        place.opened = 0;
        expect(&mut place, &mut work, &mut out, Ok(Next::Full));
    }
}

/// After 256 readings every call says that the listing is full, however many there are.
#[test]
fn full_after_256() {
    let (rng, mut tally, heard) = (&mut Rng::new(2), Tally::default(), block_of_slots(10));
    let (blocks, listed) = ([&G[..], &heard], Listed::new(&G, &heard));
    let mut state = State::noise(rng, 4 * 55 * 256);
    assert!(compare_open(rng, &mut tally, blocks, &listed, &mut state));
    for handed in 0..300 {
        let answer = if handed < MAX_READINGS { Next::Reading } else { Next::Full };
        assert_eq!(compare_next(rng, &mut tally, blocks, &listed, &mut state, 8).0, Some(answer));
    }
}

/// Sequences from opening on, some left early, some gone on with after the end.
fn expect_sequences(seeds: std::ops::Range<u64>, shapes: &[&Shape], most: usize) -> [usize; 3] {
    let (mut tally, mut met) = (Tally::default(), [0; 3]);
    over_seeds(seeds, |rng| {
        let (grammar, heard) = heard_case(rng, shapes);
        let blocks = [grammar::pack(&grammar), heard::pack(&grammar, &heard)];
        let blocks = [&blocks[0][..], &blocks[1]];
        let listed = Listed::new(blocks[0], blocks[1]);
        let (work_len, out_len) =
            listed.as_ref().map(|all| (all.work_length(), all.reading_length())).expect("accepted");
        let more = rng.pick(&[0, 0, 1, 40]);
        let mut state = State::noise(rng, work_len + more);
        assert!(compare_open(rng, &mut tally, blocks, &listed, &mut state));
        let calls = rng.below(most) + 2;
        for _ in 0..calls {
            let out_len = if rng.once_in(20) { out_len - 1 } else { out_len + rng.pick(&[0, 0, 1, 9]) };
            let (answer, _) = compare_next(rng, &mut tally, blocks, &listed, &mut state, out_len);
            if let Some(answer) = answer {
                met[answer as usize] += 1;
            }
        }
    });
    met
}

#[test]
fn sequences_beside_the_full_list() {
    let [no_more, readings, full] =
        expect_sequences(0..1_500, &[&TINY, &AMBIGUOUS, &AMBIGUOUS, &SPARSE, &MANY_SYMBOLS], 40);
    assert!(no_more > 5_000 && readings > 5_000 && full == 0, "{no_more} no more, {readings} readings, {full} full");
}

#[test]
fn long_sequences() {
    let [_, readings, full] = expect_sequences(10_000..10_040, &[&AMBIGUOUS], 400);
    assert!(readings > 2_000 && full > 200, "{readings} readings, {full} full");
    let [_, readings, _] = expect_sequences(20_000..20_030, &[&LONG], 40);
    assert!(readings > 200, "{readings} readings");
    expect_sequences(30_000..30_003, &[&GREATEST], 6);
}

/// Alters an open listing in some way.
fn alter(rng: &mut Rng, listed: &Listed, state: &mut State) {
    let table = &mut state.work.slice_mut()[..listed.work_length()];
    // where something may stand: the first ranks, and the entries that are not empty
    let places: Vec<usize> = (0..table.len()).filter(|at| *at < 4 * listed.cells() || table[*at] != 0).collect();
    let entries: Vec<usize> = places.iter().map(|at| at / 4 * 4).collect();
    match rng.below(10) {
        0 => *state.place() = Place { handed: rng.within(0..=12), opened: 1 },
        1 => {
            let handed = rng.pick(&[0, 1, 255, 256, 257, 65_536, u32::MAX]);
            *state.place() = Place { handed, opened: rng.pick(&[0, 1, 2, u32::MAX]) };
        }
        2 => table.fill(0),
        3 => table.iter_mut().for_each(|number| *number = rng.bits() as u32),
        4 => (0..rng.within(1..=30)).for_each(|_| table[rng.pick(&places)] = rng.bits() as u32),
        5 => (0..rng.within(1..=8)).for_each(|_| table[rng.pick(&places)] ^= 1 << rng.below(32)),
        6 => (0..rng.within(1..=8)).for_each(|_| {
            let at = rng.pick(&places);
            table[at] = table[at].wrapping_add(rng.pick(&[1, u32::MAX, 255, 256, 1 << 11]));
        }),
        7 => (0..rng.within(1..=4)).for_each(|_| {
            let (from, to) = (rng.pick(&entries), rng.pick(&entries));
            table.copy_within(from..from + 4, to);
        }),
        8 => (0..rng.within(1..=4)).for_each(|_| table[rng.pick(&entries)..][..4].fill(0)),
        _ => {
            // an entry of a rank that nobody has asked for yet
            let at = rng.below(table.len() / 4) * 4;
            let from = rng.pick(&entries);
            table.copy_within(from..from + 4, at);
        }
    }
}

/// Counts what calls answered: no more, a reading, full, 53.
#[derive(Default, Debug)]
struct Met([usize; 4]);

impl Met {
    fn count(&mut self, answer: Result<Next, Refusal>) {
        match answer {
            Ok(answer) => self.0[answer as usize] += 1,
            Err(refusal) => {
                assert_eq!(refusal, AlteredWalk);
                self.0[3] += 1;
            }
        }
    }

    /// So many calls at least, in which each answer was met so often.
    fn demand(&self, calls: usize, each: usize) {
        println!("no more, readings, full, 53: {:?}", self.0);
        assert!(self.0.iter().sum::<usize>() >= calls && self.0.iter().all(|count| *count >= each), "{self:?}");
    }
}

/// An open listing after some calls.
fn opened(rng: &mut Rng, blocks: [&[u8]; 2], listed: &Listed, calls: usize) -> State {
    let mut state = State::noise(rng, listed.work_length());
    let Place { handed, opened } = {
        let (mut place, mut out) = (Place::default(), vec![0; listed.reading_length()]);
        let work = state.work.slice_mut();
        services::open(blocks[0], blocks[1], &mut place, work).expect("an open listing");
        for _ in 0..calls {
            services::next(blocks[0], blocks[1], &mut place, work, &mut out).expect("no refusal");
        }
        place
    };
    *state.place() = Place { handed, opened };
    state
}

#[test]
fn altered_places_and_tables() {
    let mut met = Met::default();
    over_seeds(40_000..46_000, |rng| {
        let (grammar, heard) = heard_case(rng, &[&TINY, &TINY, &AMBIGUOUS, &SPARSE]);
        let blocks = [grammar::pack(&grammar), heard::pack(&grammar, &heard)];
        let blocks = [&blocks[0][..], &blocks[1]];
        let listed = Listed::new(blocks[0], blocks[1]).expect("accepted");
        let calls = rng.below(10);
        let mut state = opened(rng, blocks, &listed, calls);
        for _ in 0..4 {
            alter(rng, &listed, &mut state);
            for _ in 0..2 {
                let out_len = listed.reading_length() + rng.pick(&[0, 0, 3]);
                met.count(expect_sound(rng, blocks, &listed, &mut state, out_len));
            }
        }
    });
    met.demand(48_000, 1_000);
}

/// Nothing but the mark of the place is altered: what the table spells as it stands is handed out, and nothing is looked for.
#[test]
fn altered_marks() {
    let mut met = Met::default();
    over_seeds(46_000..47_000, |rng| {
        let (grammar, heard) = heard_case(rng, &[&TINY, &AMBIGUOUS, &SPARSE]);
        let blocks = [grammar::pack(&grammar), heard::pack(&grammar, &heard)];
        let blocks = [&blocks[0][..], &blocks[1]];
        let listed = Listed::new(blocks[0], blocks[1]).expect("accepted");
        let calls = rng.below(4);
        let mut left = opened(rng, blocks, &listed, calls);
        let handed = left.place().handed;
        for rank in 0..=handed {
            let mut state = left.clone();
            *state.place() = Place { handed: rank, opened: rng.pick(&[0, 2, u32::MAX]) };
            let answer = expect_sound(rng, blocks, &listed, &mut state, listed.reading_length());
            assert!(state.work == left.work, "a table that was taken as it stands");
            assert!(answer == Ok(Next::Reading) || rank == handed, "{answer:?} at rank {rank} of {handed}");
            met.count(answer);
        }
    });
    println!("{met:?}");
    assert!(met.0[0] == 0 && met.0[1] > 500 && met.0[3] > 500, "{met:?}");
}

/// Nothing but the edge number of one found leaf is altered. A reading of slots has no edge numbers, so its walk is one that passes
/// still, and the reading is handed out as if nothing had been altered; of a graph its edge is another or none.
#[test]
fn altered_edges() {
    let (mut of_slots, mut of_graphs) = (Met::default(), Met::default());
    over_seeds(47_000..49_000, |rng| {
        let (grammar, heard) = heard_case(rng, &[&TINY, &AMBIGUOUS, &SPARSE]);
        let blocks = [grammar::pack(&grammar), heard::pack(&grammar, &heard)];
        let blocks = [&blocks[0][..], &blocks[1]];
        let listed = Listed::new(blocks[0], blocks[1]).expect("accepted");
        let calls = 1 + rng.below(4);
        let mut state = opened(rng, blocks, &listed, calls);
        let handed = state.place().handed;
        let leaves = listed.leaves(state.work.slice());
        if leaves.is_empty() {
            return;
        }
        let at = rng.pick(&leaves);
        let bits = rng.within(1..=255) << 8;
        state.work.slice_mut()[at] ^= bits;
        for rank in 0..handed {
            *state.place() = Place { handed: rank, opened: 1 };
            let before = state.clone();
            let answer = expect_sound(rng, blocks, &listed, &mut state, listed.reading_length());
            state = before;
            match heard {
                Heard::Slots(_) => {
                    assert_eq!(answer, Ok(Next::Reading));
                    of_slots.count(answer);
                }
                Heard::Graph(_) => of_graphs.count(answer),
            }
        }
    });
    println!("slots {of_slots:?}, graphs {of_graphs:?}");
    assert!(of_slots.0[1] > 1_000 && of_graphs.0[1] > 500 && of_graphs.0[3] > 300, "{of_slots:?} {of_graphs:?}");
}

/// The table of one utterance or grammar lent to a call with another, which may need as much room or less.
#[test]
fn other_blocks() {
    let mut met = Met::default();
    over_seeds(50_000..52_000, |rng| {
        let shape = rng.pick(&[&TINY, &AMBIGUOUS, &SPARSE]);
        let (grammar, first) = heard_case(rng, &[shape]);
        let other = match rng.below(3) {
            0 => heard_case(rng, &[shape]),
            1 => (grammar.clone(), Heard::Slots(utterance_of(rng, &grammar, shape))),
            _ => (grammar.clone(), Heard::Graph(graph_of(rng, &grammar, shape))),
        };
        let [first, other] =
            [&(grammar, first), &other].map(|(grammar, heard)| [grammar::pack(grammar), heard::pack(grammar, heard)]);
        let [first, other] = [&first, &other].map(|blocks| [&blocks[0][..], &blocks[1]]);
        let [listed, of_other] = [first, other].map(|blocks| Listed::new(blocks[0], blocks[1]).expect("accepted"));
        let calls = rng.below(12);
        let mut state = opened(rng, first, &listed, calls);
        let place = *state.place();
        if of_other.work_length() > listed.work_length() {
            let answer = services::next(other[0], other[1], &mut { place }, state.work.slice_mut(), &mut [0; 80]);
            assert_eq!(answer, Err(ListingWork));
            return;
        }
        for _ in 0..4 {
            met.count(expect_sound(rng, other, &of_other, &mut state, of_other.reading_length()));
        }
    });
    assert!(met.0[1] > 500 && met.0[3] > 100, "{met:?}");
}

/// Lengths around those that are needed.
fn lengths(rng: &mut Rng, listed: &Listed) -> (usize, usize) {
    let (work, out) = (listed.work_length(), listed.reading_length());
    match rng.below(6) {
        0 => (work - 1, out - 1),
        1 => (rng.below(work), out),
        2 => (work, rng.below(out)),
        3 => (work + 50, out + 50),
        _ => (work, out),
    }
}

#[test]
fn lengths_of_all_kinds() {
    let mut tally = Tally::default();
    over_seeds(60_000..62_000, |rng| {
        let (grammar, heard) = heard_case(rng, &[&TINY, &AMBIGUOUS, &SPARSE]);
        let blocks = [grammar::pack(&grammar), heard::pack(&grammar, &heard)];
        let blocks = [&blocks[0][..], &blocks[1]];
        let listed = Listed::new(blocks[0], blocks[1]);
        let (work_len, out_len) = lengths(rng, listed.as_ref().expect("accepted"));
        let mut state = State::noise(rng, work_len);
        if !compare_open(rng, &mut tally, blocks, &listed, &mut state) {
            // never opened: 22 comes before 53
            *state.place() = Place { handed: rng.within(0..=300), opened: 0 };
        }
        for _ in 0..2 {
            compare_next(rng, &mut tally, blocks, &listed, &mut state, out_len);
        }
    });
    tally.demand(4_000, &[ListingWork, ListingOutput]);
}

#[test]
fn damaged_blocks() {
    let mut tally = Tally::default();
    over_seeds(70_000..70_150, |rng| {
        let (grammar, utterance) = case(rng, &SPARSE);
        let (_, graph) = graph_case(rng, &SPARSE);
        let blocks = [grammar::pack(&grammar), utterance::pack(&grammar, &utterance)];
        let grammars = some_grammar_blocks(rng, &grammar, 10);
        let mut damaged = some_utterance_blocks(rng, &grammar, &utterance, 10);
        damaged.extend(graph_blocks(rng, &grammar, &graph, 10).into_iter().step_by(7));
        for [grammar, heard] in &with_one_damaged(&blocks, grammars, damaged) {
            let (blocks, listed) = ([&grammar[..], heard], Listed::new(grammar, heard));
            // what is accepted may need more than this, and then 22 comes
            let mut state = State::noise(rng, 40_000);
            compare_open(rng, &mut tally, blocks, &listed, &mut state);
            if listed.is_err() {
                compare_next(rng, &mut tally, blocks, &listed, &mut state, 60);
            }
        }
    });
    tally.demand(5_000, &[GRAMMAR_BLOCK.as_slice(), &UTTERANCE_BLOCK, &GRAPH_BLOCK, &[ListingWork]].concat());
}
