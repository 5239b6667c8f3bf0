//! Shortest distances.
//!
//! Law: the distance of a state is the least weight of a path from the start to it, and that to an end the least weight of a
//! path from it to an end, with the final weight.

use super::{Acceptor, State};

impl Acceptor {
    /// The least weight of a path from the start to each state.
    pub fn shortest_distance(&self) -> Vec<i64> {
        let mut distance = vec![i64::MAX; self.states().len()];
        if let Some(start) = distance.first_mut() {
            *start = 0;
        }
        for (number, state) in self.states().iter().enumerate() {
            for arc in &state.arcs {
                let through = distance[number] + arc.weight;
                let known = &mut distance[arc.to as usize];
                *known = through.min(*known);
            }
        }
        distance
    }

    /// The least weight of a path from each state to an end, with the final weight.
    pub fn distance_to_final(&self) -> Vec<i64> {
        let mut distance = vec![0; self.states().len()];
        for (number, state) in self.states().iter().enumerate().rev() {
            distance[number] = least_onward(state, &distance);
        }
        distance
    }
}

/// The least weight of a path from a state to an end, where those of the states behind it are known.
fn least_onward(state: &State, distance: &[i64]) -> i64 {
    let onward = state.arcs.iter().map(|arc| arc.weight + distance[arc.to as usize]);
    onward.chain(state.final_weight).min().unwrap_or_default()
}

#[cfg(test)]
mod tests {
    use super::super::testing::{every_acceptor, paths};

    #[test]
    fn least_weights_of_all_paths() {
        every_acceptor(|acceptor| {
            let (forward, backward) = (acceptor.shortest_distance(), acceptor.distance_to_final());
            let all = paths(0, acceptor.states());
            assert_eq!(backward[0], all.iter().map(|(_, weight)| *weight).min().unwrap_or_default());
            for (state, distance) in backward.iter().enumerate() {
                let onward = paths(state as u32, acceptor.states());
                assert_eq!(Some(*distance), onward.iter().map(|(_, weight)| *weight).min());
            }
            for (state, distance) in forward.iter().enumerate() {
                let mut ended = acceptor.states().to_vec();
                (0..).zip(&mut ended).for_each(|(number, of)| of.final_weight = (number == state).then_some(0));
                assert_eq!(Some(*distance), paths(0, &ended).iter().map(|(_, weight)| *weight).min());
            }
        });
    }
}
