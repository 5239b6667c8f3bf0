//! Words too many.
//!
//! Law: of each path every part of its words may be passed over, each at a cost in the place of its own, and what is left of it is
//! a path with the words and weights that it had; words that the grammar does not have are always passed over. In OpenFst's words
//! an arc without a word stands beside each with one.

use super::{Acceptor, Arc, State, EPSILON, UNKNOWN};
use crate::{Graph, Utterance};

impl Acceptor {
    /// The acceptor in which words may be passed over, each at this cost, if they are not known for certain.
    ///
    /// ```
    /// use spireyerba::lattice::{Acceptor, Arc, State, UNKNOWN};
    ///
    /// // word 1, a word that the grammar does not have, word 2
    /// let arc = |label, to, weight| Arc { label, to, weight, source: 0 };
    /// let mut states = vec![State::default(); 4];
    /// states[0].arcs = vec![arc(1, 1, 4)];
    /// states[1].arcs = vec![arc(UNKNOWN, 2, 0)];
    /// states[2].arcs = vec![arc(2, 3, 7)];
    /// states[3].final_weight = Some(0);
    /// let lattice = Acceptor::new(0, states).expect("no cycle").skip(100, |_| false);
    /// // words 1 and 2, or one of them, or none
    /// assert_eq!(lattice.distance_to_final()[0], 4 + 100 + 7);
    /// assert_eq!(lattice.arcs(), 5);
    /// ```
    pub fn skip(&self, cost: i64, is_known: impl Fn(&Arc) -> bool) -> Self {
        let passing = |arc: &Arc| Arc { label: EPSILON, weight: cost, ..*arc };
        let with_skips = |state: &State| {
            let words = state.arcs.iter().filter(|arc| arc.label != EPSILON && !is_known(arc));
            let mut arcs: Vec<Arc> = words.map(passing).collect();
            arcs.extend(state.arcs.iter().filter(|arc| arc.label != UNKNOWN));
            // beside several words one arc will do
            super::acceptor::keep_cheapest(&mut arcs);
            State { arcs, ..*state }
        };
        Self::acyclic(0, self.states().iter().map(with_skips).collect())
    }
}

/// The words of slots, each with the number of its slot. What was not heard, and a slot without a word, is [`UNKNOWN`].
impl From<&Utterance> for Acceptor {
    fn from(utterance: &Utterance) -> Self {
        let mut states = vec![State::default(); utterance.slots.len() + 1];
        for (source, (state, slot)) in (0..).zip(states.iter_mut().zip(&utterance.slots)) {
            let arc = |label, weight: u32| Arc { label, to: source + 1, weight: weight.into(), source };
            let offered = slot.iter().filter(|candidate| candidate.is_offered());
            state.arcs = offered.map(|candidate| arc(super::word_label(candidate.word), candidate.cost)).collect();
            if state.arcs.is_empty() {
                state.arcs.push(arc(UNKNOWN, 0));
            }
        }
        states[utterance.slots.len()].final_weight = Some(0);
        Self::acyclic(0, states)
    }
}

/// The words of a graph, each with the number of its edge. What was not heard is [`UNKNOWN`].
impl From<&Graph> for Acceptor {
    fn from(graph: &Graph) -> Self {
        let mut states = vec![State::default(); graph.places as usize];
        for (source, edge) in (0..).zip(&graph.edges).filter(|(_, edge)| edge.from < edge.to) {
            let label = if edge.is_offered() { super::word_label(edge.word) } else { UNKNOWN };
            let arc = Arc { label, to: edge.to, weight: i64::from(edge.cost), source };
            let places = states.len() as u32;
            let from = states.get_mut(edge.from as usize).filter(|_| edge.to < places);
            from.into_iter().for_each(|state| state.arcs.push(arc));
        }
        states.last_mut().into_iter().for_each(|last| last.final_weight = Some(0));
        Self::acyclic(0, states)
    }
}

#[cfg(test)]
mod tests {
    use super::super::testing::{every_acceptor, language, paths};
    use super::*;
    use std::collections::BTreeMap;

    /// What is left of every path when any of its words are passed over.
    fn passed_over(acceptor: &Acceptor, cost: i64) -> BTreeMap<Vec<u32>, i64> {
        let mut left: BTreeMap<Vec<u32>, i64> = BTreeMap::new();
        let mut open = vec![(0, Vec::new(), 0)];
        while let Some((at, string, weight)) = open.pop() {
            let State { arcs, final_weight, .. } = &acceptor.states()[at as usize];
            if let Some(last) = final_weight {
                let known = left.entry(string.clone()).or_insert(i64::MAX);
                *known = (weight + last).min(*known);
            }
            for arc in arcs {
                let longer = if arc.label == EPSILON { string.clone() } else { [&string[..], &[arc.label]].concat() };
                open.push((arc.to, longer, weight + arc.weight));
                if arc.label != EPSILON {
                    open.push((arc.to, string.clone(), weight + cost));
                }
            }
        }
        left
    }

    #[test]
    fn every_choice_of_words() {
        let mut longer = 0;
        every_acceptor(|acceptor| {
            for cost in [0, 3] {
                let skipped = acceptor.skip(cost, |_| false);
                assert_eq!(language(&skipped), passed_over(acceptor, cost));
                longer += usize::from(language(&skipped).len() > language(acceptor).len());
            }
        });
        assert!(longer > 100, "{longer}");
    }

    #[test]
    fn what_is_known_stays() {
        every_acceptor(|acceptor| {
            let words = |acceptor: &Acceptor| language(acceptor).into_keys().collect::<Vec<_>>();
            assert_eq!(words(&acceptor.skip(1, |_| true)), words(acceptor));
            let kept = acceptor.skip(1, |arc| arc.label == 1);
            let counts = |string: &[u32]| string.iter().filter(|label| **label == 1).count();
            let all: Vec<usize> = words(acceptor).iter().map(|string| counts(string)).collect();
            assert!(words(&kept).iter().all(|string| all.contains(&counts(string))));
        });
    }

    /// Words that the grammar does not have are passed over, and nothing else is there for them.
    #[test]
    fn unknown_words() {
        let arc = |label, to| Arc { label, to, weight: 1, source: 0 };
        let mut states = vec![State::default(); 3];
        states[0].arcs = vec![arc(1, 1), arc(UNKNOWN, 1)];
        states[1].arcs = vec![arc(UNKNOWN, 2)];
        states[2].final_weight = Some(0);
        let skipped = Acceptor::new(0, states).expect("no cycle").skip(10, |_| false);
        assert_eq!(paths(0, skipped.states()), [(vec![], 20), (vec![1], 11)]);
    }
}
