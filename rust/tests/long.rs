//! Acceptors of 100,000 states in a chain: closing over arcs without words takes as long as they are many.

use spireyerba::lattice::{Acceptor, Arc, State, EPSILON};
use spireyerba_tests::clock;
use std::time::Duration;

const STATES: u32 = 100_000;
/// Nothing takes longer.
const LONGEST: Duration = Duration::from_secs(1);

/// A chain, in which these arcs leave each state but the last.
fn chain(arcs: impl Fn(u32) -> Vec<(u32, u32)>) -> Acceptor {
    let arc = |(label, to): (u32, u32)| Arc { label, to, weight: 1, source: to };
    let state = |number| State { arcs: arcs(number).into_iter().map(arc).collect(), ..State::default() };
    let last = State { final_weight: Some(0), ..State::default() };
    Acceptor::new(0, (0..STATES - 1).map(state).chain([last]).collect()).expect("no cycle")
}

/// Removes arcs without words in time, and answers how many arcs there are then.
fn arcs_without_epsilon(name: &str, acceptor: &Acceptor) -> usize {
    let (time, without) = clock::once(|| acceptor.rm_epsilon(usize::MAX));
    println!("{name}: {time:.3?}");
    assert!(time < LONGEST, "{name} took {time:?}");
    without.expect("no limit").arcs()
}

#[test]
fn a_long_chain_takes_no_longer_than_its_length() {
    let (count, end, half) = (STATES as usize, STATES - 1, STATES / 2);
    let words = chain(|state| vec![(1, state + 1)]);
    assert_eq!(arcs_without_epsilon("words", &words), count - 1);
    let in_turn = chain(|state| vec![(if state % 2 == 0 { 1 } else { EPSILON }, state + 1)]);
    assert_eq!(arcs_without_epsilon("words and silences in turn", &in_turn), count / 2);
    // each word leads to the next state and to the end
    let to_the_end = chain(|state| vec![(1, state + 1), (EPSILON, end)]);
    assert_eq!(arcs_without_epsilon("an end at each word", &to_the_end), 2 * (count - 1) - 1);
    let silent = chain(|state| vec![(if state == 0 { 1 } else { EPSILON }, state + 1)]);
    assert_eq!(arcs_without_epsilon("one word", &silent), 1);
    // words in the first half, from each of which silences of the second half lead to the end, side by side
    let into_silence = chain(|state| match state < half {
        true => vec![(1, state + 1), (2, half)],
        false => vec![(EPSILON, state + 1), (EPSILON, state + 1)],
    });
    assert_eq!(arcs_without_epsilon("a long silence behind each word", &into_silence), 2 * half as usize);
}
