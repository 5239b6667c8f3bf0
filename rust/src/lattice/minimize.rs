//! Minimising.
//!
//! Law: the strings and their costs stay, and no two states have the same final weight and the same arcs. If the acceptor is
//! pushed and has one path for each string, none with one path for each has fewer states (but for what one end takes).

use super::{Acceptor, Arc, State};
use std::collections::HashMap;

/// What is behind a state: its final weight, and label, end and weight of each arc in their order.
type Future = (Option<i64>, Vec<(u32, u32, i64)>);

impl Acceptor {
    /// The same strings at the same costs, with states made one that have the same final weight and the same arcs.
    pub fn minimize(&self) -> Self {
        self.minimize_by(&vec![0; self.states().len()]).0
    }

    /// The same, and for each state one that it was made of: of several the one that stands first in an order, which gives
    /// it time and sources.
    pub(super) fn minimize_by(&self, order: &[i64]) -> (Self, Vec<u32>) {
        let mut classes: HashMap<Future, u32> = HashMap::new();
        let mut class_of = vec![0; self.states().len()];
        let mut first: Vec<u32> = Vec::new();
        for (number, state) in (0..self.states().len() as u32).zip(self.states()).rev() {
            let mut arcs: Vec<_> =
                state.arcs.iter().map(|arc| (arc.label, class_of[arc.to as usize], arc.weight)).collect();
            arcs.sort_unstable();
            arcs.dedup();
            let next = first.len() as u32;
            let class = *classes.entry((state.final_weight, arcs)).or_insert(next);
            class_of[number as usize] = class;
            match first.get_mut(class as usize) {
                None => first.push(number),
                Some(known) if order[number as usize] < order[*known as usize] => *known = number,
                Some(_) => {}
            }
        }
        // classes of states behind come first, and in an acceptor last
        let count = first.len() as u32;
        first.reverse();
        let states = first.iter().map(|number| self.renamed(*number, |state| count - 1 - class_of[state as usize]));
        (Self { states: states.collect() }, first)
    }

    /// A state whose arcs end at the classes of where they did; of several alike one stays.
    fn renamed(&self, number: u32, class: impl Fn(u32) -> u32) -> State {
        let mut state = self.states()[number as usize].clone();
        state.arcs.iter_mut().for_each(|arc| arc.to = class(arc.to));
        let alike = |arc: &Arc| (arc.label, arc.to, arc.weight);
        state.arcs.sort_by_key(|arc| (alike(arc), arc.source));
        state.arcs.dedup_by_key(|arc| alike(arc));
        state
    }
}

#[cfg(test)]
mod tests {
    use super::super::testing::{every_acceptor, language, paths};
    use super::*;
    use std::collections::BTreeSet;

    #[test]
    fn the_same_strings_at_the_same_costs() {
        every_acceptor(|acceptor| {
            let minimal = acceptor.minimize();
            assert_eq!(language(&minimal), language(acceptor));
            assert_eq!(Acceptor::new(0, minimal.states().to_vec()).map(|sorted| sorted.arcs()), Ok(minimal.arcs()));
            assert_eq!(minimal.minimize().states().len(), minimal.states().len());
        });
    }

    /// By Myhill and Nerode: as many states as there are sets of what can follow, with weights from the cheapest.
    #[test]
    fn no_state_too_many() {
        every_acceptor(|acceptor| {
            let single =
                acceptor.rm_epsilon(usize::MAX).and_then(|whole| whole.determinize(usize::MAX)).expect("no limit");
            let (pushed, _) = single.push();
            let minimal = pushed.minimize();
            let futures: BTreeSet<_> = (0..pushed.states().len()).map(|at| paths(at as u32, pushed.states())).collect();
            assert_eq!(minimal.states().len(), futures.len());
        });
    }

    #[test]
    fn what_each_state_was_made_of() {
        every_acceptor(|acceptor| {
            let order: Vec<i64> = (0..acceptor.states().len() as i64).map(|number| number * 7 % 5).collect();
            let (minimal, first) = acceptor.minimize_by(&order);
            for (number, first) in first.iter().enumerate() {
                assert_eq!(paths_of(&minimal, number as u32), paths_of(acceptor, *first));
            }
        });
    }

    fn paths_of(acceptor: &Acceptor, from: u32) -> BTreeSet<(Vec<u32>, i64)> {
        paths(from, acceptor.states()).into_iter().collect()
    }
}
