//! Weight pushing.
//!
//! Law of [`Acceptor::reweight`]: every path is kept, and each weighs less by the start's potential. Law of
//! [`Acceptor::push`]: every path is kept, each weighs less by the least weight of all, and from every state a path of weight 0
//! leads to an end; so no arc weighs less than nothing, and states with equal futures look alike. Law of
//! [`Acceptor::within`]: every path is kept, and every weight is from 0 to the greatest; if they are so already, they stay.

use super::{Acceptor, Arc, State};

impl Acceptor {
    /// The same paths, each of which weighs less by the potential of the start: an arc's weight changes by the potential of
    /// the state where it ends less that of the state that it leaves.
    ///
    /// # Panics
    ///
    /// If there is not a potential for each state.
    pub fn reweight(&self, potential: &[i64]) -> Self {
        let reweighted = |(state, &here): (&State, &i64)| State {
            arcs: state
                .arcs
                .iter()
                .map(|arc| Arc { weight: arc.weight + potential[arc.to as usize] - here, ..*arc })
                .collect(),
            final_weight: state.final_weight.map(|weight| weight - here),
            time: state.time,
        };
        Self { states: self.states().iter().zip(potential).map(reweighted).collect() }
    }

    /// The same paths with weights pushed towards the start, where the least weight of all, which is answered too, is taken
    /// off.
    pub fn push(&self) -> (Self, i64) {
        let potential = self.distance_to_final();
        (self.reweight(&potential), potential.first().copied().unwrap_or_default())
    }

    /// The same paths of a pushed acceptor with final weights of 0, with weights from 0 to the greatest, and how much more
    /// than nothing each weighs than before; nothing if such weights are not found. The potentials wanted, such as the
    /// distances before pushing, are met as nearly as that allows.
    pub(super) fn within(&self, wanted: &[i64], greatest: i64) -> Option<(Self, i64)> {
        let mut potential = vec![0; self.states().len()];
        for (number, state) in self.states().iter().enumerate().rev() {
            let onward = |arc: &Arc| potential[arc.to as usize] - arc.weight;
            let least = state.arcs.iter().map(onward).max();
            let most = state.arcs.iter().map(onward).min().map(|onward| onward + greatest);
            potential[number] = match (least, most) {
                (Some(least), Some(most)) if least > most => return None,
                (Some(least), Some(most)) => wanted[number].clamp(least, most),
                _ => 0,
            };
        }
        Some(self.raised(&potential))
    }

    /// The same, but of all such weights those by which each path weighs as nearly as can be so much more than nothing. An arc's
    /// bounds are two differences of potentials, and the greatest that all of them allow are shortest distances.
    pub(super) fn nearest_within(&self, wanted: i64, greatest: i64) -> Option<(Self, i64)> {
        let end = self.states().len().checked_sub(1)?;
        let [of_start, of_end] = [self.most(0, greatest)?, self.most(end, greatest)?];
        let start = wanted.clamp(-of_start[end], of_end[0]);
        let potential: Vec<i64> = of_start.iter().zip(&of_end).map(|(one, other)| (start + one).min(*other)).collect();
        Some(self.raised(&potential))
    }

    /// The greatest potentials by which every weight is from 0 to the greatest, if that of a state is 0; nothing if there are none.
    fn most(&self, from: usize, greatest: i64) -> Option<Vec<i64>> {
        let mut most = vec![FAR; self.states().len()];
        most[from] = 0;
        for _ in 0..=most.len() {
            let mut changes = false;
            for (number, state) in self.states().iter().enumerate() {
                for &Arc { to, weight, .. } in &state.arcs {
                    let to = to as usize;
                    for (one, other, length) in [(to, number, weight), (number, to, greatest - weight)] {
                        let through = most[other] + length;
                        if most[other] < FAR && through < most[one] {
                            (most[one], changes) = (through, true);
                        }
                    }
                }
            }
            if !changes {
                return Some(most);
            }
        }
        None
    }

    /// The same paths with these potentials before each state, and that of the start.
    fn raised(&self, potential: &[i64]) -> (Self, i64) {
        let start = potential.first().copied().unwrap_or_default();
        let lowered: Vec<i64> = potential.iter().map(|potential| -potential).collect();
        (self.reweight(&lowered), start)
    }
}

/// Farther than any distance.
const FAR: i64 = i64::MAX / 2;

#[cfg(test)]
mod tests {
    use super::super::testing::{every_acceptor, paths, Rng};
    use super::*;

    fn less(all: Vec<(Vec<u32>, i64)>, by: i64) -> Vec<(Vec<u32>, i64)> {
        all.into_iter().map(|(string, weight)| (string, weight - by)).collect()
    }

    #[test]
    fn every_path_weighs_less_by_the_starts_potential() {
        let mut rng = Rng(5);
        every_acceptor(|acceptor| {
            let potential: Vec<i64> = acceptor.states().iter().map(|_| rng.below(50) as i64 - 20).collect();
            let changed = acceptor.reweight(&potential);
            assert_eq!(paths(0, changed.states()), less(paths(0, acceptor.states()), potential[0]));
        });
    }

    #[test]
    fn from_every_state_nothing_leads_to_an_end() {
        every_acceptor(|acceptor| {
            let (pushed, least) = acceptor.push();
            assert_eq!(paths(0, pushed.states()), less(paths(0, acceptor.states()), least));
            assert!(pushed.distance_to_final().iter().all(|distance| *distance == 0));
            assert!(pushed.states().iter().flat_map(|state| &state.arcs).all(|arc| arc.weight >= 0));
        });
    }

    #[test]
    fn weights_within_bounds() {
        let (mut met, mut kept) = (0, 0);
        every_acceptor(|acceptor| {
            let acceptor = acceptor.rm_epsilon(usize::MAX).expect("no limit").one_final();
            if acceptor.is_empty() {
                return;
            }
            let (pushed, least) = acceptor.push();
            let Some((changed, more)) = pushed.within(&acceptor.distance_to_final(), 8) else { return };
            met += 1;
            assert_eq!(paths(0, changed.states()), less(paths(0, acceptor.states()), least - more));
            let weights = |acceptor: &Acceptor| -> Vec<i64> {
                acceptor.states().iter().flat_map(|state| &state.arcs).map(|arc| arc.weight).collect()
            };
            assert!(weights(&changed).iter().all(|weight| (0..=8).contains(weight)));
            if weights(&acceptor).iter().all(|weight| (0..=8).contains(weight)) {
                assert_eq!(changed, acceptor);
                kept += 1;
            }
        });
        assert!(met > 200 && kept > 50, "{met} within, of which {kept} stayed");
    }

    /// The shortest distance between every two states, where an arc's bounds are two links; nothing if there is no potential.
    fn distances(acceptor: &Acceptor, greatest: i64) -> Option<Vec<Vec<i64>>> {
        let count = acceptor.states().len();
        let mut far = vec![vec![FAR; count]; count];
        (0..count).for_each(|state| far[state][state] = 0);
        for (number, state) in acceptor.states().iter().enumerate() {
            for arc in &state.arcs {
                let to = arc.to as usize;
                far[number][to] = far[number][to].min(arc.weight);
                far[to][number] = far[to][number].min(greatest - arc.weight);
            }
        }
        for between in 0..count {
            for from in 0..count {
                for to in 0..count {
                    let through = far[from][between] + far[between][to];
                    far[from][to] = far[from][to].min(through);
                }
            }
        }
        (0..count).all(|state| far[state][state] == 0).then_some(far)
    }

    #[test]
    fn the_nearest_weights_within_bounds() {
        let (mut none, mut met) = (0, 0);
        every_acceptor(|acceptor| {
            let acceptor = acceptor.rm_epsilon(usize::MAX).expect("no limit").one_final();
            let (pushed, _) = acceptor.push();
            if pushed.is_empty() {
                return;
            }
            for (wanted, greatest) in [(0, 3), (9, 3), (40, 8), (-9, 4)] {
                let Some(far) = distances(&pushed, greatest) else {
                    assert_eq!(pushed.nearest_within(wanted, greatest), None);
                    assert_eq!(pushed.within(&vec![wanted; pushed.states().len()], greatest), None);
                    none += 1;
                    continue;
                };
                let end = far.len() - 1;
                let (changed, more) = pushed.nearest_within(wanted, greatest).expect("there are some");
                assert_eq!(more, wanted.clamp(-far[0][end], far[end][0]));
                assert_eq!(paths(0, changed.states()), less(paths(0, pushed.states()), -more));
                let weights = changed.states().iter().flat_map(|state| &state.arcs).map(|arc| arc.weight);
                assert!(weights.into_iter().all(|weight| (0..=greatest).contains(&weight)));
                met += 1;
            }
        });
        assert!(none > 100 && met > 500, "{none} without, {met} with");
    }
}
