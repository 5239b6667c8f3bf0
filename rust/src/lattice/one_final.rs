//! One end.
//!
//! Law: the strings of paths with at least one arc stay, at their costs; there is one state where paths end, at weight 0, and no
//! arc leaves it. An arc to a state where a path may end also goes to the last state, with the final weight.

use super::acceptor::keep_cheapest;
use super::{Acceptor, Arc, State};

impl Acceptor {
    /// The same strings at the same costs with one end. The empty path, which has no arc, is not among them.
    pub fn one_final(&self) -> Self {
        if self.is_empty() {
            return Self::default();
        }
        let end = self.states().len() as u32;
        let finals: Vec<Option<i64>> = self.states().iter().map(|state| state.final_weight).collect();
        let mut states: Vec<State> = self.states().iter().map(|state| ended(state, &finals, end)).collect();
        let ends = self.states().iter().filter(|state| state.final_weight.is_some());
        let time = ends.filter_map(|state| state.time).max_by(f64::total_cmp);
        states.push(State { arcs: Vec::new(), final_weight: Some(0), time });
        Self::acyclic(0, states)
    }
}

/// A state whose arcs to ends go to the last state too.
fn ended(state: &State, finals: &[Option<i64>], end: u32) -> State {
    let to_end = |arc: &Arc| finals[arc.to as usize].map(|weight| Arc { to: end, weight: arc.weight + weight, ..*arc });
    let mut arcs: Vec<Arc> = state.arcs.iter().filter_map(to_end).chain(state.arcs.iter().copied()).collect();
    keep_cheapest(&mut arcs);
    State { arcs, final_weight: None, time: state.time }
}

#[cfg(test)]
mod tests {
    use super::super::testing::{every_acceptor, language, paths};

    #[test]
    fn one_end_and_the_same_strings() {
        every_acceptor(|acceptor| {
            let whole = acceptor.rm_epsilon(usize::MAX).expect("no limit");
            let ended = whole.one_final();
            let mut expected = language(&whole);
            expected.remove(&Vec::new());
            assert_eq!(language(&ended), expected);
            let (ends, others): (Vec<_>, Vec<_>) =
                ended.states().iter().partition(|state| state.final_weight == Some(0) && state.arcs.is_empty());
            assert_eq!(ends.len(), usize::from(!expected.is_empty()));
            assert!(others.iter().all(|state| state.final_weight.is_none()));
        });
    }

    #[test]
    fn strings_keep_one_path_each() {
        every_acceptor(|acceptor| {
            let single =
                acceptor.rm_epsilon(usize::MAX).and_then(|whole| whole.determinize(usize::MAX)).expect("no limit");
            let ended = single.one_final();
            if !ended.is_empty() {
                assert_eq!(paths(0, ended.states()).len(), language(&ended).len());
            }
        });
    }
}
