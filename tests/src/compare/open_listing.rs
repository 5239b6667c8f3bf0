//! The comparison of open listings: of calls with all as it was left, and of calls with anything.

use super::{Lent, Tally};
use crate::check;
use crate::open_listing::Listed;
use crate::seeded::rng::Rng;
use spireyerba::limits::{graph_reading_length, MAX_READINGS};
use spireyerba::services::{self, Next, Place};
use spireyerba::{Heard, Refusal};

/// An open listing's place, between others that no call may touch, and its table.
#[derive(Clone, PartialEq)]
pub struct State {
    places: [Place; 3],
    pub work: Lent<u32>,
}

impl State {
    /// Full of noise.
    pub fn noise(rng: &mut Rng, work_len: usize) -> Self {
        let places = [(); 3].map(|()| Place { handed: rng.bits() as u32, opened: rng.bits() as u32 });
        Self { places, work: Lent::noise(rng, work_len) }
    }

    pub fn place(&mut self) -> &mut Place {
        &mut self.places[1]
    }

    /// A call of the library.
    fn next(&mut self, blocks: &[Lent<u8>; 2], out: &mut Lent<u8>) -> Result<Next, Refusal> {
        let [grammar, heard] = blocks;
        let Self { places: [_, place, _], work } = self;
        services::next(grammar.slice(), heard.slice(), place, work.slice_mut(), out.slice_mut())
    }
}

/// Opens a listing of blocks with this list, or that are refused so: compares the answer, the place and the table after the call,
/// guards included. Before it they held noise. Answers whether it is open.
pub fn compare_open(
    rng: &mut Rng,
    tally: &mut Tally,
    blocks: [&[u8]; 2],
    listed: &Result<Listed, Refusal>,
    state: &mut State,
) -> bool {
    let lent = blocks.map(|block| Lent::holding(rng, block));
    let (before, mut expected) = (lent.clone(), state.clone());
    let State { places: [_, place, _], work } = state;
    let answer = services::open(lent[0].slice(), lent[1].slice(), place, work.slice_mut());
    tally.record(blocks, &answer);
    let State { places: [_, place, _], work } = &mut expected;
    let expected_answer =
        listed.as_ref().map_err(|refusal| *refusal).and_then(|listed| listed.open(place, work.slice_mut()));
    assert_eq!(answer, expected_answer, "answers of the library and of the second implementation\n{blocks:02x?}");
    assert_eq!(state.places, expected.places, "the place, and those around it\n{blocks:02x?}");
    assert!(*state == expected, "the work table\n{blocks:02x?}");
    assert!(lent == before, "a block was changed\n{blocks:02x?}");
    answer.is_ok()
}

/// Compares a call on what the calls before left: the answer, the place, the output and, unless a reading was handed out, the
/// table, guards included. Answers what both answered, nothing if they refused, and how many ranks were found.
pub fn compare_next(
    rng: &mut Rng,
    tally: &mut Tally,
    blocks: [&[u8]; 2],
    listed: &Result<Listed, Refusal>,
    state: &mut State,
    out_len: usize,
) -> (Option<Next>, usize) {
    let lent = blocks.map(|block| Lent::holding(rng, block));
    let mut out = Lent::noise(rng, out_len);
    let (blocks_before, before, mut expected_out) = (lent.clone(), state.clone(), out.clone());
    let answer = state.next(&lent, &mut out);
    tally.record((blocks, before.places[1]), &answer);
    let mut expected = before.clone();
    let work_len = before.work.slice().len();
    let expected_answer = listed
        .as_ref()
        .map_err(|refusal| *refusal)
        .and_then(|listed| listed.next(expected.place(), work_len, expected_out.slice_mut()));
    let context = || format!("{blocks:02x?}\n{:?}", before.places[1]);
    assert_eq!(answer, expected_answer, "answers of the library and of the second implementation\n{}", context());
    assert_eq!(state.places, expected.places, "the place, and those around it\n{}", context());
    assert!(out == expected_out, "output {:02x?}\nexpected {:02x?}\n{}", out.slice(), expected_out.slice(), context());
    assert!(lent == blocks_before, "a block was changed\n{}", context());
    match (answer, listed) {
        (Ok(Next::Reading), Ok(listed)) => (answer.ok(), found_within(listed, &before, state)),
        _ => {
            assert!(*state == before, "the table was changed\n{}", context());
            (answer.ok(), 0)
        }
    }
}

/// How many ranks a call found that handed out a reading; no more than it may.
fn found_within(listed: &Listed, before: &State, after: &State) -> usize {
    assert!(after.work.has_guards_of(&before.work), "what stands around the table was changed");
    let handed = before.places[1].handed;
    let [had, has] = [before, after].map(|state| listed.found(state.work.slice()));
    let (sum_before, sum_after) = (had.iter().sum::<usize>(), has.iter().sum::<usize>());
    let most = listed.most_found(handed);
    assert!(sum_after <= sum_before + most, "{sum_before} ranks, then {sum_after}, of at most {most} more");
    if handed == 0 {
        let grown = had.iter().zip(&has).all(|(had, has)| *has <= had + 1);
        assert!(grown, "the first reading takes one rank of each span and head");
    }
    sum_after.saturating_sub(sum_before)
}

/// A call with any place and table, of blocks that are accepted. What it hands out passes the check; whatever is no reading changes
/// nothing. Where the rank that it looks for stands in the table already, it hands out what that spells if that passes the check, and
/// answers 53 if not.
pub fn expect_sound(
    rng: &mut Rng,
    blocks: [&[u8]; 2],
    listed: &Listed,
    state: &mut State,
    out_len: usize,
) -> Result<Next, Refusal> {
    let lent = blocks.map(|block| Lent::holding(rng, block));
    let mut out = Lent::noise(rng, out_len);
    let (blocks_before, before, out_before) = (lent.clone(), state.clone(), out.clone());
    let answer = state.next(&lent, &mut out);
    let context = || format!("{answer:?}\n{blocks:02x?}\n{:?}", before.places[1]);
    assert!(lent == blocks_before, "a block was changed\n{}", context());
    if let Some(expected) = spelled_in(blocks, listed, &before) {
        let reading = answer.is_ok().then(|| &out.slice()[..listed.reading_length()]);
        assert_eq!(reading, expected.as_deref(), "what the table spells\n{}", context());
        assert!(matches!(answer, Ok(Next::Reading) | Err(Refusal::AlteredWalk)), "{}", context());
    }
    if answer != Ok(Next::Reading) {
        assert_eq!(state.places, before.places, "the place was changed\n{}", context());
        assert!(*state == before, "the table was changed\n{}", context());
        assert!(out == out_before, "the output was changed\n{}", context());
        return answer;
    }
    let mut expected_places = before.places;
    expected_places[1].handed += 1;
    assert_eq!(state.places, expected_places, "{}", context());
    found_within(listed, &before, state);
    let (reading, behind) = out.slice().split_at(listed.reading_length());
    let own = own_length(listed, reading);
    for check in [services::check, check::check] {
        assert_eq!(check(blocks[0], blocks[1], &reading[..own]), Ok(()), "{reading:02x?}\n{}", context());
    }
    assert!(reading[own..].iter().all(|byte| *byte == 0), "zeros behind a shorter path: {reading:02x?}\n{}", context());
    assert!(out.has_guards_of(&out_before) && out_before.slice().ends_with(behind), "{}", context());
    answer
}

/// What a call is to hand out, with its zeros, or nothing if it is to answer 53, where its table as it stands decides that: the rank
/// that is asked for is found already, or none is looked for, since the place has another mark than 1 or the table of a first call is
/// not zeros where the first ranks stand.
fn spelled_in(blocks: [&[u8]; 2], listed: &Listed, state: &State) -> Option<Option<Vec<u8>>> {
    let (Place { handed, opened }, work) = (state.places[1], state.work.slice());
    if handed >= MAX_READINGS {
        return None;
    }
    let Some(spelled) = listed.spelled(work, handed as usize) else {
        let is_sought = opened == 1 && (handed > 0 || listed.front_is_zero(work));
        return (!is_sought).then_some(None);
    };
    let mut reading = spelled.filter(|reading| check::check(blocks[0], blocks[1], reading).is_ok());
    if let Some(reading) = &mut reading {
        reading.resize(listed.reading_length(), 0);
    }
    Some(reading)
}

/// The bytes of a reading by the number of words that it says it has.
fn own_length(listed: &Listed, reading: &[u8]) -> usize {
    let words = (u16::from_be_bytes([reading[0], reading[1]]) >> 6 & 0x3f) as usize;
    match listed.heard {
        Heard::Slots(_) => reading.len(),
        Heard::Graph(_) => {
            assert!((1..=listed.heard.longest()).contains(&words), "{words} edges");
            graph_reading_length(words, listed.grammar.rules.len())
        }
    }
}
