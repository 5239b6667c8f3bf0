//! Epsilon removal.
//!
//! Law: the strings and their costs stay, and every arc has a word. An arc without a word adds its weight to the word before
//! it, whose arc then also ends where that one does, or at the beginning to the word behind it. Of arcs that become alike the
//! cheapest stays.

use super::{Acceptor, Arc, State, TooLarge, EPSILON};
use std::cmp::Reverse;
use std::collections::BinaryHeap;

impl Acceptor {
    /// The same strings at the same costs without [`EPSILON`], or nothing if that takes more than so many arcs.
    pub fn rm_epsilon(&self, most_arcs: usize) -> Result<Self, TooLarge> {
        if self.is_empty() {
            return Ok(Self::default());
        }
        let mut closures = Closures::new(self);
        let mut states = Vec::with_capacity(self.states().len());
        let mut laid = 0;
        for number in 0..self.states().len() as u32 {
            let state = closures.state(number);
            laid += state.arcs.len();
            if laid > most_arcs {
                return Err(TooLarge);
            }
            states.push(state);
        }
        Ok(Self::acyclic(0, states))
    }
}

/// What it takes to get to a state, and the source of the word before it.
type Reached = (i64, u32);

/// Where arcs without words lead from some states, found by one walk over those that are reached, in their order.
struct Closures<'a> {
    acceptor: &'a Acceptor,
    /// Whether a path ends or a word begins at each state.
    is_useful: Vec<bool>,
    /// For each state the one at which something begins or ways part, and what it takes to get there.
    onward: Vec<(u32, i64)>,
    /// The cheapest way to each state in the walk at hand, and the states that are reached and not left yet.
    reached: Vec<Option<Reached>>,
    next: BinaryHeap<Reverse<u32>>,
}

impl<'a> Closures<'a> {
    fn new(acceptor: &'a Acceptor) -> Self {
        let is_useful =
            |state: &State| state.final_weight.is_some() || state.arcs.iter().any(|arc| arc.label != EPSILON);
        let is_useful: Vec<bool> = acceptor.states().iter().map(is_useful).collect();
        let onward = onward(acceptor.states(), &is_useful);
        Self { acceptor, is_useful, onward, reached: vec![None; acceptor.states().len()], next: BinaryHeap::new() }
    }

    /// A state with arcs that all have words. A path ends at a state without words behind it only at the beginning: else
    /// the arc before it ends at the end.
    fn state(&mut self, number: u32) -> State {
        let acceptor = self.acceptor;
        let State { final_weight, time, .. } = acceptor.states()[number as usize];
        let mut state = State { arcs: Vec::new(), final_weight, time };
        let from = if number == 0 { self.walk([(0, (0, 0))]) } else { vec![(number, (0, 0))] };
        let mut words: Vec<Arc> = Vec::new();
        for (from, (before, _)) in from {
            let State { arcs, final_weight, .. } = &acceptor.states()[from as usize];
            let with_words = arcs.iter().filter(|arc| arc.label != EPSILON);
            words.extend(with_words.map(|arc| Arc { weight: before + arc.weight, ..*arc }));
            let ended = final_weight.map(|weight| weight + before);
            state.final_weight = state.final_weight.into_iter().chain(ended).min();
        }
        words.sort_unstable_by_key(|arc| arc.label);
        for alike in words.chunk_by(|one, other| one.label == other.label) {
            let label = alike[0].label;
            let ends = self.walk(alike.iter().map(|arc| (arc.to, (arc.weight, arc.source))));
            let useful = ends.into_iter().filter(|(to, _)| self.is_useful[*to as usize]);
            state.arcs.extend(useful.map(|(to, (weight, source))| Arc { label, to, weight, source }));
        }
        state
    }

    /// The states to which arcs without words lead from some, those among them, with the cheapest way to each. Of those at which
    /// nothing begins only such as have several ways on are among them.
    fn walk(&mut self, from: impl IntoIterator<Item = (u32, Reached)>) -> Vec<(u32, Reached)> {
        from.into_iter().for_each(|(state, way)| self.reach(state, way));
        let mut found = Vec::new();
        while let Some(Reverse(at)) = self.next.pop() {
            let Some((before, source)) = self.reached[at as usize].take() else { continue };
            found.push((at, (before, source)));
            for arc in self.acceptor.states()[at as usize].arcs.iter().filter(|arc| arc.label == EPSILON) {
                self.reach(arc.to, (before + arc.weight, source));
            }
        }
        found
    }

    /// Takes a way to a state, if it is the cheapest.
    fn reach(&mut self, state: u32, (before, source): Reached) {
        let (state, behind) = self.onward[state as usize];
        let way = (before + behind, source);
        let known = &mut self.reached[state as usize];
        if known.is_none() {
            self.next.push(Reverse(state));
        }
        *known = Some(known.map_or(way, |known| known.min(way)));
    }
}

/// For each state the first that is useful or has several ways on, and what it takes to get there: from others there is one way alone.
fn onward(states: &[State], is_useful: &[bool]) -> Vec<(u32, i64)> {
    let mut onward: Vec<(u32, i64)> = (0..states.len() as u32).map(|state| (state, 0)).collect();
    for (number, state) in states.iter().enumerate().rev().filter(|(number, _)| !is_useful[*number]) {
        let way = |arc: &Arc| {
            let (to, behind) = onward[arc.to as usize];
            (to, arc.weight + behind)
        };
        let least = state.arcs.iter().map(way).min_by_key(|(_, weight)| *weight);
        if let Some(least) = least.filter(|least| state.arcs.iter().all(|arc| way(arc).0 == least.0)) {
            onward[number] = least;
        }
    }
    onward
}

#[cfg(test)]
mod tests {
    use super::super::testing::{every_acceptor, language};
    use super::*;
    use std::collections::BTreeMap;

    #[test]
    fn the_same_strings_at_the_same_costs() {
        every_acceptor(|acceptor| {
            let without = acceptor.rm_epsilon(usize::MAX).expect("no limit");
            assert_eq!(language(&without), language(acceptor));
            assert!(without.states().iter().flat_map(|state| &state.arcs).all(|arc| arc.label != EPSILON));
        });
    }

    /// The states to which arcs without words lead from one, by every path, with the cheapest way to each.
    fn closure(acceptor: &Acceptor, from: u32) -> BTreeMap<u32, i64> {
        let mut ways = BTreeMap::from([(from, 0)]);
        for state in from..acceptor.states().len() as u32 {
            let Some(&before) = ways.get(&state) else { continue };
            for arc in acceptor.states()[state as usize].arcs.iter().filter(|arc| arc.label == EPSILON) {
                let way = before + arc.weight;
                ways.entry(arc.to).and_modify(|known| *known = way.min(*known)).or_insert(way);
            }
        }
        ways
    }

    /// What leaves each state, by the definition: of arcs that become alike the cheapest, and of those the one that stands first.
    #[test]
    fn arcs_by_the_definition() {
        every_acceptor(|acceptor| {
            let useful = Closures::new(acceptor).is_useful;
            let of = |state: u32| &acceptor.states()[state as usize];
            let mut states = Vec::new();
            for number in 0..acceptor.states().len() as u32 {
                let begin = if number == 0 { closure(acceptor, 0) } else { BTreeMap::from([(number, 0)]) };
                let mut laid: BTreeMap<(u32, u32), Reached> = BTreeMap::new();
                for (from, before) in &begin {
                    for arc in of(*from).arcs.iter().filter(|arc| arc.label != EPSILON) {
                        let ends = closure(acceptor, arc.to).into_iter().filter(|(to, _)| useful[*to as usize]);
                        for (to, behind) in ends {
                            let way = (before + arc.weight + behind, arc.source);
                            laid.entry((arc.label, to)).and_modify(|known| *known = way.min(*known)).or_insert(way);
                        }
                    }
                }
                let arc = |((label, to), (weight, source))| Arc { label, to, weight, source };
                let ended = begin.iter().filter_map(|(from, before)| Some(before + of(*from).final_weight?));
                states.push(State {
                    arcs: laid.into_iter().map(arc).collect(),
                    final_weight: ended.min(),
                    ..*of(number)
                });
            }
            assert_eq!(acceptor.rm_epsilon(usize::MAX), Ok(Acceptor::acyclic(0, states)));
        });
    }

    #[test]
    fn no_more_arcs_than_are_allowed() {
        every_acceptor(|acceptor| {
            let without = acceptor.rm_epsilon(usize::MAX).expect("no limit");
            assert!(without.arcs() == 0 || acceptor.rm_epsilon(without.arcs() - 1) == Err(TooLarge));
        });
    }
}
