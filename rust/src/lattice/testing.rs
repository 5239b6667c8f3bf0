//! Random lattices, and all their paths.

use super::{Acceptor, Arc, State, EPSILON};
use std::collections::{BTreeMap, BTreeSet};

/// SplitMix64.
pub struct Rng(pub u64);

impl Rng {
    pub fn below(&mut self, count: usize) -> usize {
        self.0 = self.0.wrapping_add(0x9e37_79b9_7f4a_7c15);
        let mut z = self.0;
        z = (z ^ (z >> 30)).wrapping_mul(0xbf58_476d_1ce4_e5b9);
        z = (z ^ (z >> 27)).wrapping_mul(0x94d0_49bb_1331_11eb);
        ((z ^ (z >> 31)) % count as u64) as usize
    }
}

/// Up to nine states in any order with up to 20 arcs that form no cycle, of which some say nothing and some weigh less than
/// nothing; some states may be on no path.
pub fn random_states(seed: u64) -> (u32, Vec<State>) {
    let mut rng = Rng(seed);
    let count = 2 + rng.below(8);
    let shift = rng.below(count);
    // the state at a place of the order
    let at = |place: usize| ((place + shift) % count) as u32;
    let mut states = vec![State::default(); count];
    let words = 1 + rng.below(3);
    for source in 0..rng.below(21) as u32 {
        let from = rng.below(count - 1);
        let to = at(from + 1 + rng.below((count - from - 1).min(3)));
        let label = rng.below(words + 1) as u32;
        let weight = rng.below(12) as i64 - 2;
        states[at(from) as usize].arcs.push(Arc { label, to, weight, source });
    }
    states[at(count - 1) as usize].final_weight = Some(0);
    for _ in 0..rng.below(3) {
        states[rng.below(count)].final_weight = Some(rng.below(9) as i64 - 1);
    }
    (at(0), states)
}

/// Lattices of some layers, in which every state of one goes to every state of the next.
pub fn layered(rng: &mut Rng) -> Acceptor {
    let widths: Vec<usize> = (0..3).map(|_| 2 + rng.below(4)).collect();
    let count: usize = widths.iter().sum();
    let mut states = vec![State::default(); count + 2];
    let (mut before, mut next) = (0..1, 1);
    for width in widths.iter().copied().chain([1]) {
        let layer = next..next + width;
        for from in before {
            for to in layer.clone() {
                let words = 1 + rng.below(3);
                states[from].arcs.extend((0..words).map(|_| random_arc(rng, to as u32)));
            }
        }
        (before, next) = (layer, next + width);
    }
    states[count + 1].final_weight = Some(0);
    Acceptor::new(0, states).expect("no cycle")
}

pub fn random_arc(rng: &mut Rng, to: u32) -> Arc {
    let label = if rng.below(9) == 0 { EPSILON } else { 1 + rng.below(9) as u32 };
    Arc { label, to, weight: rng.below(4_000) as i64, source: 0 }
}

/// Some hundreds of random acceptors that accept something.
pub fn every_acceptor(mut test: impl FnMut(&Acceptor)) {
    let mut tested = 0;
    for seed in 0..900 {
        let (start, states) = random_states(seed);
        let acceptor = Acceptor::new(start, states).expect("no cycle");
        if !acceptor.is_empty() {
            tested += 1;
            test(&acceptor);
        }
    }
    assert!(tested > 400, "{tested} acceptors");
}

/// The strings, words alone, and weights of all paths from a state to an end, in their order.
pub fn paths(from: u32, states: &[State]) -> Vec<(Vec<u32>, i64)> {
    let mut found = Vec::new();
    let mut todo = vec![(from, Vec::new(), 0)];
    while let Some((at, string, weight)) = todo.pop() {
        let Some(state) = states.get(at as usize) else { break };
        found.extend(state.final_weight.map(|last| (string.clone(), weight + last)));
        for arc in &state.arcs {
            let mut longer = string.clone();
            longer.extend(Some(arc.label).filter(|label| *label != EPSILON));
            todo.push((arc.to, longer, weight + arc.weight));
        }
    }
    found.sort();
    found
}

/// Each string with its cost.
pub fn language(acceptor: &Acceptor) -> BTreeMap<Vec<u32>, i64> {
    let mut costs = BTreeMap::new();
    if acceptor.is_empty() {
        return costs;
    }
    for (string, weight) in paths(0, acceptor.states()) {
        let cost = costs.entry(string).or_insert(weight);
        *cost = weight.min(*cost);
    }
    costs
}

/// The strings and weights of so many paths, the lightest first.
pub fn cheapest(acceptor: &Acceptor, count: usize) -> Vec<(Vec<u32>, i64)> {
    let onward = acceptor.distance_to_final();
    let mut open = BTreeSet::from([(onward[0], 0, 0_usize, Vec::new())]);
    let mut found = Vec::new();
    while let Some((whole, so_far, state, string)) = open.pop_first() {
        let Some(of) = acceptor.states().get(state) else {
            found.push((string, whole));
            if found.len() == count {
                break;
            }
            continue;
        };
        open.extend(of.final_weight.map(|last| (so_far + last, so_far + last, usize::MAX, string.clone())));
        for arc in &of.arcs {
            let (mut longer, weight) = (string.clone(), so_far + arc.weight);
            longer.extend(Some(arc.label).filter(|label| *label != EPSILON));
            open.insert((weight + onward[arc.to as usize], weight, arc.to as usize, longer));
        }
    }
    found
}
