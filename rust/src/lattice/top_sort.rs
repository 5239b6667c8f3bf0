//! Topological order.
//!
//! Law: every arc goes from a state to one that stands behind it; of those that may come next the earliest does, then the one
//! with the lower number. States have such an order if and only if no arcs go round in a cycle.

use super::{Arc, State};
use std::cmp::{Ordering, Reverse};
use std::collections::BinaryHeap;

/// An arc of a cycle: it leaves the state, and is the one with this number there.
#[derive(Clone, Copy, Debug, PartialEq, Eq)]
pub struct Cycle {
    /// The state.
    pub state: u32,
    /// The arc's number among those that leave the state.
    pub arc: usize,
    /// The arc's source.
    pub source: u32,
}

/// A state that is next, the earliest first; one without a time comes before those with one.
#[derive(PartialEq)]
struct Next {
    time: Option<f64>,
    state: u32,
}

impl Eq for Next {}

impl Ord for Next {
    fn cmp(&self, other: &Self) -> Ordering {
        let [one, two] = [self, other].map(|next| next.time.unwrap_or(f64::NEG_INFINITY));
        one.total_cmp(&two).then(self.state.cmp(&other.state))
    }
}

impl PartialOrd for Next {
    fn partial_cmp(&self, other: &Self) -> Option<Ordering> {
        Some(self.cmp(other))
    }
}

/// All states in topological order.
pub(super) fn top_sort(states: &[State]) -> Result<Vec<u32>, Cycle> {
    let mut entering = vec![0_u32; states.len()];
    states.iter().flat_map(|state| &state.arcs).for_each(|arc| entering[arc.to as usize] += 1);
    let next = |state: u32| Reverse(Next { time: states[state as usize].time, state });
    let mut free: BinaryHeap<_> =
        (0..states.len() as u32).filter(|state| entering[*state as usize] == 0).map(next).collect();
    let mut order = Vec::with_capacity(states.len());
    while let Some(Reverse(Next { state, .. })) = free.pop() {
        order.push(state);
        for arc in &states[state as usize].arcs {
            entering[arc.to as usize] -= 1;
            if entering[arc.to as usize] == 0 {
                free.push(next(arc.to));
            }
        }
    }
    if order.len() == states.len() {
        return Ok(order);
    }
    Err(cycle(states, &entering))
}

/// An arc of a cycle, where states that arcs still enter were never free: a walk back over such arcs meets itself.
fn cycle(states: &[State], entering: &[u32]) -> Cycle {
    let mut before: Vec<Option<Cycle>> = vec![None; states.len()];
    for (state, of) in (0..).zip(states) {
        for (arc, &Arc { to, source, .. }) in of.arcs.iter().enumerate() {
            if entering[state as usize] > 0 && entering[to as usize] > 0 {
                before[to as usize].get_or_insert(Cycle { state, arc, source });
            }
        }
    }
    let mut at = before.iter().flatten().next().copied().unwrap_or(Cycle { state: 0, arc: 0, source: 0 });
    // after as many steps as there are states the walk is on a cycle
    for _ in 0..states.len() {
        at = before[at.state as usize].unwrap_or(at);
    }
    at
}

#[cfg(test)]
mod tests {
    use super::super::testing::{random_states, Rng};
    use super::*;

    #[test]
    fn arcs_go_to_states_behind() {
        for seed in 0..500 {
            let (_, states) = random_states(seed);
            let order = top_sort(&states).expect("no cycle");
            let place = |state: u32| order.iter().position(|known| *known == state);
            for (state, of) in (0..).zip(&states) {
                assert!(of.arcs.iter().all(|arc| place(state) < place(arc.to)));
            }
        }
    }

    #[test]
    fn an_arc_of_a_cycle_is_found() {
        let mut rng = Rng(1);
        for seed in 0..300 {
            let (_, mut states) = random_states(seed);
            let order = top_sort(&states).expect("no cycle");
            // an arc back, from a state to one from which a path leads to it
            let (at, back) = (rng.below(order.len()), rng.below(order.len()));
            let (from, to) = (order[at.max(back)], order[at.min(back)]);
            states[from as usize].arcs.push(Arc { label: 1, to, weight: 0, source: 0 });
            match top_sort(&states) {
                Ok(_) => assert!(!reaches(&states, to, from)),
                Err(Cycle { state, arc, .. }) => {
                    let end = states[state as usize].arcs[arc].to;
                    assert!(reaches(&states, end, state), "seed {seed}");
                }
            }
        }
    }

    fn reaches(states: &[State], from: u32, to: u32) -> bool {
        let (mut seen, mut todo) = (vec![false; states.len()], vec![from]);
        while let Some(state) = todo.pop() {
            if !std::mem::replace(&mut seen[state as usize], true) {
                todo.extend(states[state as usize].arcs.iter().map(|arc| arc.to));
            }
        }
        seen[to as usize]
    }

    #[test]
    fn the_earliest_is_next() {
        let arc = |to| Arc { label: 1, to, weight: 0, source: 0 };
        let mut states = vec![State::default(); 4];
        states[0].arcs = vec![arc(1), arc(2)];
        (states[1].arcs, states[2].arcs) = (vec![arc(3)], vec![arc(3)]);
        assert_eq!(top_sort(&states), Ok(vec![0, 1, 2, 3]));
        (states[1].time, states[2].time) = (Some(0.5), Some(0.25));
        assert_eq!(top_sort(&states), Ok(vec![0, 2, 1, 3]));
    }
}
