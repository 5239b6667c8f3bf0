//! Pruning.
//!
//! An arc's *slack* is the least weight of a path through it less the least weight of all. Law: with a beam of b, every path
//! that weighs at most b more than the lightest is kept, for none of its arcs has more slack; and every arc that is kept is on
//! such a path. If the next greater slack is b', every path that weighs less than b' more is kept too.

use super::{Acceptor, Arc};

/// What each arc and each end is on a path of.
pub(super) struct Slacks<'a> {
    acceptor: &'a Acceptor,
    from_start: Vec<i64>,
    to_final: Vec<i64>,
}

impl<'a> Slacks<'a> {
    pub(super) fn new(acceptor: &'a Acceptor) -> Self {
        Self { acceptor, from_start: acceptor.shortest_distance(), to_final: acceptor.distance_to_final() }
    }

    /// The least weight of all paths.
    pub(super) fn least(&self) -> i64 {
        self.to_final.first().copied().unwrap_or_default()
    }

    fn of_arc(&self, state: usize, arc: &Arc) -> i64 {
        self.from_start[state] + arc.weight + self.to_final[arc.to as usize] - self.least()
    }

    fn of_end(&self, state: usize, weight: i64) -> i64 {
        self.from_start[state] + weight - self.least()
    }

    /// All slacks, the least first.
    pub(super) fn sorted(&self) -> Vec<i64> {
        let mut all = Vec::with_capacity(self.acceptor.arcs());
        for (number, state) in self.acceptor.states().iter().enumerate() {
            all.extend(state.arcs.iter().map(|arc| self.of_arc(number, arc)));
            all.extend(state.final_weight.map(|weight| self.of_end(number, weight)));
        }
        all.sort_unstable();
        all
    }

    /// What has at most so much slack.
    pub(super) fn prune(&self, beam: i64) -> Acceptor {
        self.acceptor
            .filtered(|state, arc| self.of_arc(state, arc) <= beam, |state, weight| self.of_end(state, weight) <= beam)
    }
}

impl Acceptor {
    /// The arcs and ends of paths that weigh at most `beam` more than the lightest.
    pub fn prune(&self, beam: i64) -> Self {
        Slacks::new(self).prune(beam)
    }
}

#[cfg(test)]
mod tests {
    use super::super::testing::{every_acceptor, paths};
    use super::*;

    #[test]
    fn every_path_within_the_beam_and_no_other_arc() {
        every_acceptor(|acceptor| {
            let all = paths(0, acceptor.states());
            let slacks = Slacks::new(acceptor);
            let mut distinct = slacks.sorted();
            distinct.dedup();
            for (place, &beam) in distinct.iter().enumerate() {
                let pruned = acceptor.prune(beam);
                let below = distinct.get(place + 1).map_or(i64::MAX, |next| slacks.least() + next);
                let within = |(_, weight): &&(Vec<u32>, i64)| *weight < below;
                let left = paths(0, pruned.states());
                assert!(left.iter().filter(within).eq(all.iter().filter(within)));
                assert!(left.iter().filter(|(_, weight)| *weight <= slacks.least() + beam).count() > 0);
                assert!(Slacks::new(&pruned).sorted().iter().all(|slack| *slack <= beam));
            }
        });
    }
}
