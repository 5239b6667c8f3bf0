//! Determinising.
//!
//! Law: the strings and their costs stay, and no two arcs with one label leave a state: each string has one path, whose weight
//! is its cost. A state is a set of states with what each is dearer than the cheapest of them (Mohri's weighted subsets), and
//! has the time of that one. It may take exponentially many, so there is a limit.

use super::{Acceptor, Arc, State};
use std::collections::HashMap;

/// A step would take more than it was allowed.
#[derive(Clone, Copy, Debug, PartialEq, Eq)]
pub struct TooLarge;

/// States with what each is dearer than the cheapest of them, in their order.
type Subset = Vec<(u32, i64)>;

/// A subset's arc with its label, where the original one ends, its weight from the cheapest of the subset, and its source.
type Step = (u32, u32, i64, u32);

impl Acceptor {
    /// The same strings at the same costs, each on one path; or nothing if more than so many arcs are looked at. A label
    /// that says nothing counts as a word.
    pub fn determinize(&self, most_steps: usize) -> Result<Self, TooLarge> {
        if self.is_empty() {
            return Ok(Self::default());
        }
        let mut subsets = Subsets::default();
        subsets.number(vec![(0, 0)]);
        let mut steps_taken = 0;
        while let Some(subset) = subsets.list.get(subsets.states.len()).cloned() {
            let mut steps = self.steps(&subset);
            steps_taken += steps.len() + 1;
            if steps_taken > most_steps {
                return Err(TooLarge);
            }
            steps.sort_unstable();
            let arcs = steps.chunk_by(|one, other| one.0 == other.0).map(|steps| subsets.arc(steps)).collect();
            let finals = |&(state, dearer): &(u32, i64)| Some(self.states()[state as usize].final_weight? + dearer);
            let final_weight = subset.iter().filter_map(finals).min();
            let time =
                subset.iter().find(|(_, dearer)| *dearer == 0).and_then(|(at, _)| self.states()[*at as usize].time);
            subsets.states.push(State { arcs, final_weight, time });
        }
        Ok(Self::acyclic(0, subsets.states))
    }

    /// What leaves the states of a subset.
    fn steps(&self, subset: &[(u32, i64)]) -> Vec<Step> {
        let of_state = |&(state, dearer): &(u32, i64)| {
            let arcs = self.states()[state as usize].arcs.iter();
            arcs.map(move |arc| (arc.label, arc.to, dearer + arc.weight, arc.source))
        };
        subset.iter().flat_map(of_state).collect()
    }
}

/// The subsets that were met, numbered, and the states of those that were looked at.
#[derive(Default)]
struct Subsets {
    numbers: HashMap<Subset, u32>,
    list: Vec<Subset>,
    states: Vec<State>,
}

impl Subsets {
    fn number(&mut self, subset: Subset) -> u32 {
        let next = self.list.len() as u32;
        *self.numbers.entry(subset).or_insert_with_key(|subset| {
            self.list.push(subset.clone());
            next
        })
    }

    /// The arc of some steps in their order that have one label.
    fn arc(&mut self, steps: &[Step]) -> Arc {
        let (label, _, weight, source) = steps.iter().copied().min_by_key(|step| step.2).unwrap_or_default();
        let mut subset: Subset = steps.iter().map(|&(_, to, through, _)| (to, through - weight)).collect();
        // of steps to one state the first is the cheapest
        subset.dedup_by_key(|(to, _)| *to);
        Arc { label, to: self.number(subset), weight, source }
    }
}

#[cfg(test)]
mod tests {
    use super::super::testing::{every_acceptor, language, paths};
    use super::*;
    use std::collections::BTreeSet;

    #[test]
    fn each_string_has_one_path_at_its_cost() {
        every_acceptor(|acceptor| {
            let whole = acceptor.rm_epsilon(usize::MAX).expect("no limit");
            let single = whole.determinize(usize::MAX).expect("no limit");
            assert_eq!(paths(0, single.states()), language(acceptor).into_iter().collect::<Vec<_>>());
            for state in single.states() {
                let labels: BTreeSet<u32> = state.arcs.iter().map(|arc| arc.label).collect();
                assert_eq!(labels.len(), state.arcs.len());
            }
        });
    }

    #[test]
    fn the_source_is_the_cheapest_arcs() {
        every_acceptor(|acceptor| {
            let single = acceptor.determinize(usize::MAX).expect("no limit");
            let all: Vec<&Arc> = acceptor.states().iter().flat_map(|state| &state.arcs).collect();
            for arc in single.states().iter().flat_map(|state| &state.arcs) {
                assert!(all.iter().any(|known| (known.source, known.label) == (arc.source, arc.label)));
            }
        });
    }

    #[test]
    fn a_limit_ends_it() {
        // a word on three arcs of different weights from each state: a state for each choice
        let arc = |label, to: u32| Arc { label, to, weight: i64::from(to * 7_919 % 101), source: 0 };
        let count = 40;
        let mut states: Vec<State> = (0..count).map(|_| State::default()).collect();
        for (number, state) in (0..count - 1).zip(&mut states) {
            let more = (number + 2 < count).then(|| arc(1, number + 2));
            state.arcs = [arc(1, number + 1), arc(2, number + 1)].into_iter().chain(more).collect();
        }
        states[count as usize - 1].final_weight = Some(0);
        let hard = Acceptor::new(0, states).expect("no cycle");
        assert_eq!(hard.determinize(10_000), Err(TooLarge));
        assert!(Acceptor::default().determinize(0).is_ok_and(|none| none.is_empty()));
    }
}
