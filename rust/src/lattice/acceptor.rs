//! Acyclic weighted acceptors.

use super::top_sort::{top_sort, Cycle};

/// The label of an arc on which nothing is said.
pub const EPSILON: u32 = 0;
/// The label of a word that the grammar does not have. No graph can hold it.
pub const UNKNOWN: u32 = u32::MAX;

/// The label of the grammar's word with a number.
pub const fn word_label(word: u32) -> u32 {
    word + 1
}

/// An arc that leaves a state.
#[derive(Clone, Copy, Debug, PartialEq, Eq, Hash)]
pub struct Arc {
    /// What is said on it: [`EPSILON`], [`word_label`] of a word, or [`UNKNOWN`].
    pub label: u32,
    /// The state where it ends.
    pub to: u32,
    /// What it weighs.
    pub weight: i64,
    /// Where its word comes from, such as the number of a link or of a slot. It is carried along and changes nothing: of
    /// arcs that become one the cheapest arc's stays.
    pub source: u32,
}

/// A state with what leaves it.
#[derive(Clone, Debug, Default, PartialEq)]
pub struct State {
    /// The arcs that leave it.
    pub arcs: Vec<Arc>,
    /// What ending here weighs, if a path may end here.
    pub final_weight: Option<i64>,
    /// When it was reached, if that is known.
    pub time: Option<f64>,
}

/// An acyclic weighted acceptor of which every state is on a path from the start to an end. State 0 is the start, and every
/// arc goes to a state with a greater number. One that accepts nothing has no states.
#[derive(Clone, Debug, Default, PartialEq)]
pub struct Acceptor {
    pub(super) states: Vec<State>,
}

impl Acceptor {
    /// The states in topological order, of those that may come next the earliest first and then the one that stands first,
    /// without what is on no path from the start to an end. Answers an arc of a cycle if there is one.
    ///
    /// # Panics
    ///
    /// If the start or an arc's end is no state.
    pub fn new(start: u32, states: Vec<State>) -> Result<Self, Cycle> {
        let order = top_sort(&states)?;
        Ok(Self::connect(start, states, &order))
    }

    /// The acceptor of states that a step has made out of an acyclic one.
    pub(super) fn acyclic(start: u32, states: Vec<State>) -> Self {
        Self::new(start, states).unwrap_or_else(|_| unreachable!("no step makes a cycle"))
    }

    /// What is on a path from the start to an end, in the order given.
    fn connect(start: u32, mut states: Vec<State>, order: &[u32]) -> Self {
        let mut is_reached = vec![false; states.len()];
        if let Some(start) = is_reached.get_mut(start as usize) {
            *start = true;
        }
        for &state in order {
            if is_reached[state as usize] {
                states[state as usize].arcs.iter().for_each(|arc| is_reached[arc.to as usize] = true);
            }
        }
        let mut goes_on: Vec<bool> = states.iter().map(|state| state.final_weight.is_some()).collect();
        for &state in order.iter().rev() {
            goes_on[state as usize] |= states[state as usize].arcs.iter().any(|arc| goes_on[arc.to as usize]);
        }
        let is_kept = |state: &u32| is_reached[*state as usize] && goes_on[*state as usize];
        let kept: Vec<u32> = order.iter().copied().filter(is_kept).collect();
        let mut number = vec![None; states.len()];
        (0..).zip(&kept).for_each(|(new, old)| number[*old as usize] = Some(new));
        let renumbered = |old: &u32| {
            let mut state = std::mem::take(&mut states[*old as usize]);
            state.arcs.retain(|arc| number[arc.to as usize].is_some());
            state.arcs.iter_mut().for_each(|arc| arc.to = number[arc.to as usize].unwrap_or_default());
            state
        };
        Self { states: kept.iter().map(renumbered).collect() }
    }

    /// The states, of which the first is the start.
    pub fn states(&self) -> &[State] {
        &self.states
    }

    /// The states taken out, to be changed and made an acceptor again.
    pub fn into_states(self) -> Vec<State> {
        self.states
    }

    /// Whether it accepts no string, not even the empty one.
    pub fn is_empty(&self) -> bool {
        self.states.is_empty()
    }

    /// How many arcs there are.
    pub fn arcs(&self) -> usize {
        self.states.iter().map(|state| state.arcs.len()).sum()
    }

    /// The same states with other arcs and final weights, of which none are added.
    pub(super) fn filtered(
        &self,
        keep_arc: impl Fn(usize, &Arc) -> bool,
        keep_final: impl Fn(usize, i64) -> bool,
    ) -> Self {
        let filtered = |(number, state): (usize, &State)| State {
            arcs: state.arcs.iter().filter(|arc| keep_arc(number, arc)).copied().collect(),
            final_weight: state.final_weight.filter(|weight| keep_final(number, *weight)),
            time: state.time,
        };
        let states: Vec<State> = self.states.iter().enumerate().map(filtered).collect();
        let order: Vec<u32> = (0..states.len() as u32).collect();
        Self::connect(0, states, &order)
    }
}

/// Keeps the cheapest of the arcs of a state that have one label and one end; the others stay as they stand.
pub(super) fn keep_cheapest(arcs: &mut Vec<Arc>) {
    arcs.sort_by_key(|arc| (arc.label, arc.to, arc.weight, arc.source));
    arcs.dedup_by_key(|arc| (arc.label, arc.to));
}

#[cfg(test)]
mod tests {
    use super::super::testing::{every_acceptor, language, paths, random_states};
    use super::*;

    #[test]
    fn every_path_is_kept_and_every_arc_goes_up() {
        for seed in 0..500 {
            let (start, states) = random_states(seed);
            let expected = paths(start, &states);
            let acceptor = Acceptor::new(start, states).expect("no cycle");
            assert_eq!(paths(0, acceptor.states()), expected, "seed {seed}");
            let goes_up = |(number, state): (usize, &State)| state.arcs.iter().all(|arc| arc.to as usize > number);
            assert!(acceptor.states().iter().enumerate().all(goes_up));
        }
    }

    #[test]
    fn what_is_on_no_path_is_left_out() {
        every_acceptor(|acceptor| {
            let again = Acceptor::new(0, acceptor.states().to_vec()).expect("no cycle");
            assert_eq!(again.states().len(), acceptor.states().len());
            for cut in 0..acceptor.states().len() {
                let mut states = acceptor.states().to_vec();
                states[cut] = State::default();
                let without = Acceptor::new(0, states).expect("no cycle");
                assert!(without.states().len() < acceptor.states().len());
                assert!(without.is_empty() == language(&without).is_empty());
            }
        });
    }
}
