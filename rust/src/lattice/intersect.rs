//! Product with a small automaton.
//!
//! Law: the strings that both accept, each at the sum of both costs. Labels that say nothing leave the automaton where it is.

use super::{Acceptor, Arc, State, EPSILON};
use std::collections::HashMap;

/// A small automaton, which may have cycles. State 0 is its start.
#[derive(Clone, Debug, Default, PartialEq)]
pub struct Automaton {
    /// The states.
    pub states: Vec<AutomatonState>,
}

/// A state of an automaton.
#[derive(Clone, Debug, Default, PartialEq)]
pub struct AutomatonState {
    /// Arcs with words; one without is on no path.
    pub arcs: Vec<Arc>,
    /// Where every other word leads, and what it weighs: OpenFst's rho.
    pub rho: Option<(u32, i64)>,
    /// What ending here weighs, if a path may end here.
    pub final_weight: Option<i64>,
}

impl Automaton {
    /// Accepts the strings that have a word.
    ///
    /// ```
    /// use spireyerba::lattice::{Acceptor, Arc, Automaton, State};
    ///
    /// let arc = |label, to, weight| Arc { label, to, weight, source: 0 };
    /// let mut states = vec![State::default(); 3];
    /// states[0].arcs = vec![arc(1, 1, 0), arc(2, 1, 5)];
    /// states[1].arcs = vec![arc(1, 2, 0), arc(2, 2, 3)];
    /// states[2].final_weight = Some(0);
    /// let lattice = Acceptor::new(0, states).expect("no cycle");
    /// assert_eq!(lattice.distance_to_final()[0], 0);
    /// let with_two = lattice.intersect(&Automaton::containing(2));
    /// assert_eq!(with_two.distance_to_final()[0], 3);
    /// ```
    pub fn containing(label: u32) -> Self {
        let seen = Arc { label, to: 1, weight: 0, source: 0 };
        Self {
            states: vec![
                AutomatonState { arcs: vec![seen], rho: Some((0, 0)), final_weight: None },
                AutomatonState { arcs: Vec::new(), rho: Some((1, 0)), final_weight: Some(0) },
            ],
        }
    }

    /// Where a label leads from a state, and what that weighs.
    fn follow(&self, state: u32, label: u32) -> Vec<(u32, i64)> {
        let AutomatonState { arcs, rho, .. } = &self.states[state as usize];
        if label == EPSILON {
            return vec![(state, 0)];
        }
        let matching = arcs.iter().filter(|arc| arc.label == label).map(|arc| (arc.to, arc.weight));
        let found: Vec<(u32, i64)> = matching.collect();
        if found.is_empty() {
            return rho.iter().copied().collect();
        }
        found
    }
}

impl Acceptor {
    /// The strings that an automaton accepts too, each at both costs.
    ///
    /// # Panics
    ///
    /// If an arc of the automaton ends at no state of it.
    pub fn intersect(&self, automaton: &Automaton) -> Self {
        if self.is_empty() || automaton.states.is_empty() {
            return Self::default();
        }
        let mut pairs = Pairs::default();
        pairs.number((0, 0));
        let mut states = Vec::new();
        while let Some(&(here, there)) = pairs.list.get(states.len()) {
            let State { arcs, final_weight, time } = &self.states()[here as usize];
            let mut paired = Vec::new();
            for arc in arcs {
                let followed = automaton.follow(there, arc.label).into_iter();
                paired.extend(followed.map(|(to, weight)| pairs.arc(arc, to, weight)));
            }
            let ended = automaton.states[there as usize].final_weight;
            let final_weight = final_weight.zip(ended).map(|(one, other)| one + other);
            states.push(State { arcs: paired, final_weight, time: *time });
        }
        Self::acyclic(0, states)
    }
}

/// The pairs of states that were met, numbered.
#[derive(Default)]
struct Pairs {
    numbers: HashMap<(u32, u32), u32>,
    list: Vec<(u32, u32)>,
}

impl Pairs {
    fn number(&mut self, pair: (u32, u32)) -> u32 {
        let next = self.list.len() as u32;
        *self.numbers.entry(pair).or_insert_with(|| {
            self.list.push(pair);
            next
        })
    }

    /// The arc of both.
    fn arc(&mut self, arc: &Arc, there: u32, weight: i64) -> Arc {
        Arc { to: self.number((arc.to, there)), weight: arc.weight + weight, ..*arc }
    }
}

#[cfg(test)]
mod tests {
    use super::super::testing::{every_acceptor, language, Rng};
    use super::*;
    use std::collections::BTreeMap;

    /// The cost of a string in an automaton, by its definition.
    fn cost(automaton: &Automaton, string: &[u32]) -> Option<i64> {
        let mut at = BTreeMap::from([(0, 0)]);
        for &label in string {
            let mut next: BTreeMap<u32, i64> = BTreeMap::new();
            for (state, before) in at {
                for (to, weight) in automaton.follow(state, label) {
                    let known = next.entry(to).or_insert(i64::MAX);
                    *known = (before + weight).min(*known);
                }
            }
            at = next;
        }
        let ended = |(state, before): (u32, i64)| Some(automaton.states[state as usize].final_weight? + before);
        at.into_iter().filter_map(ended).min()
    }

    fn random_automaton(rng: &mut Rng) -> Automaton {
        let count = 1 + rng.below(3);
        let state = |_| AutomatonState {
            arcs: (0..rng.below(4))
                .map(|_| Arc {
                    label: 1 + rng.below(3) as u32,
                    to: rng.below(count) as u32,
                    weight: rng.below(5) as i64,
                    source: 0,
                })
                .collect(),
            rho: (rng.below(2) == 0).then(|| (rng.below(count) as u32, rng.below(4) as i64)),
            final_weight: (rng.below(2) == 0).then(|| rng.below(4) as i64),
        };
        Automaton { states: (0..count).map(state).collect() }
    }

    #[test]
    fn the_strings_of_both_at_both_costs() {
        let (mut rng, mut some) = (Rng(9), 0);
        every_acceptor(|acceptor| {
            let automaton = random_automaton(&mut rng);
            let both = |(string, one): (Vec<u32>, i64)| Some((string.clone(), one + cost(&automaton, &string)?));
            let expected: BTreeMap<_, _> = language(acceptor).into_iter().filter_map(both).collect();
            some += usize::from(!expected.is_empty());
            assert_eq!(language(&acceptor.intersect(&automaton)), expected);
        });
        assert!(some > 100, "{some} products that accept something");
    }

    #[test]
    fn strings_with_a_word() {
        every_acceptor(|acceptor| {
            let mut expected = language(acceptor);
            expected.retain(|string, _| string.contains(&2));
            assert_eq!(language(&acceptor.intersect(&Automaton::containing(2))), expected);
        });
    }
}
