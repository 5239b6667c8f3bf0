//! A word graph of a lattice.
//!
//! Law: if nothing is pruned, the graph has the lattice's strings at their costs, each on one path ([`Keep::Strings`]), or every
//! path ([`Keep::Paths`]), but for the empty string, which no graph has, and all weigh less by the same amount if no edge could
//! hold it otherwise. If something is pruned, this holds of all strings whose cost in the graph is at most
//! [`Pruned::complete_up_to`], and others may be missing or dearer. A rule weighs 0 or more, so every reading that weighs at
//! most as much is a reading of the graph. It is pruned by the widest beam that fits, of what can be determinised in time.

use super::prune::Slacks;
use super::widest::{Fitted, Minimal, Room, Widest};
use super::{Acceptor, Arc, TooLarge, UNKNOWN};
use crate::{Edge, Graph};

/// Removing epsilons may take so many arcs, and determinising may look at so many.
const MOST_ARCS: usize = 20_000;
/// So often a wider beam is tried where determinising all takes too long, by halves.
const WIDENINGS: usize = 16;
/// Every beam is tried as long as all that was tried has so many arcs.
const MOST_TRIED: usize = 1_000_000;

/// What a reduction keeps.
#[derive(Clone, Copy, Debug, Default, PartialEq, Eq)]
pub enum Keep {
    /// Each string once, at its cost.
    #[default]
    Strings,
    /// Every path, so that a string has as many as it has alignments.
    Paths,
}

/// What was pruned since a graph has no room for it.
#[derive(Clone, Copy, Debug, PartialEq, Eq)]
pub struct Pruned {
    /// How many edges the graph has.
    pub kept: usize,
    /// How many the whole would take, or, where it is too large to be told, how many links the lattice has.
    pub of: usize,
    /// Every reading that weighs at most as much is a reading of the graph.
    pub complete_up_to: i64,
    /// So many wider beams may leave more that fits, and were not tried since that takes too long.
    pub untried: usize,
}

/// A word graph, and what it is of the lattice.
#[derive(Clone, Debug, PartialEq)]
pub struct Reduced {
    /// The graph.
    pub graph: Graph,
    /// When each place was reached, if that is known of all.
    pub times: Option<Vec<f64>>,
    /// Where the word of each edge comes from: the source of its arc.
    pub sources: Vec<u32>,
    /// By how much every path of the graph weighs less than in the lattice; below 0, more.
    pub taken_off: i64,
    /// What was pruned, if anything was.
    pub pruned: Option<Pruned>,
}

/// Why a lattice has no word graph.
#[derive(Clone, Copy, Debug, PartialEq, Eq)]
pub enum Misfit {
    /// No path has a word.
    NoWord,
    /// Even what weighs the least does not fit.
    TooLarge {
        /// So many places it takes.
        places: usize,
        /// So many edges it takes.
        edges: usize,
    },
}

/// The word graph of a lattice: all of it, or else the most that fits by the widest beam. Arcs whose word is
/// [`UNKNOWN`] are left out.
pub fn reduce(lattice: &Acceptor, keep: Keep) -> Result<Reduced, Misfit> {
    let known = lattice.filtered(|_, arc| arc.label != UNKNOWN, |_, _| true);
    let Whole { minimal, fitted, below } = Whole::new(&known, keep)?;
    if minimal.acceptor.is_empty() {
        return Err(Misfit::NoWord);
    }
    let of = if below.is_some() { known.arcs() } else { minimal.acceptor.arcs() };
    let Widest { fitted, below, untried } = match (fitted, below) {
        (Some(fitted), None) => return Ok(reduced(fitted, None)),
        (Some(fitted), Some(below)) => Widest { fitted, below, untried: 0 },
        (None, whole_below) => {
            let widest = minimal.widest(&Room::GRAPH, MOST_TRIED)?;
            Widest { below: whole_below.map_or(widest.below, |whole_below| widest.below.min(whole_below)), ..widest }
        }
    };
    let (kept, complete_up_to) = (fitted.acceptor.arcs(), below - 1 - fitted.taken_off);
    Ok(reduced(fitted, Some(Pruned { kept, of, complete_up_to, untried })))
}

/// A lattice with one end and a word on every arc, minimal, with all of its strings or those below a weight.
struct Whole {
    minimal: Minimal,
    /// The same, if it fits into a graph.
    fitted: Option<Fitted>,
    /// The weight below which everything is there, if something was pruned.
    below: Option<i64>,
}

impl Whole {
    /// As much of a lattice as can be determinised in time: all, or by a beam that leaves half as many arcs, and half as
    /// many again; and then, as long as there is room, by wider ones.
    fn new(lattice: &Acceptor, keep: Keep) -> Result<Self, Misfit> {
        if let Ok(words) = words_alone(lattice, keep) {
            return Ok(Self::of(&words, keep, None));
        }
        let beams = Beams::new(lattice, keep);
        let mut fails = beams.sorted.len();
        let (mut whole, mut count) = loop {
            let count = fails / 2;
            match beams.whole(count) {
                Some(whole) => break (whole, count),
                None => fails = beams.first_of(count),
            }
            if fails == 0 {
                let least = beams.slacks.prune(0);
                return Err(Misfit::TooLarge { places: least.states().len(), edges: least.arcs() });
            }
        };
        for _ in 0..WIDENINGS {
            let beyond = beams.beyond(count);
            if beyond >= fails || whole.fitted.is_none() {
                break;
            }
            let middle = (beyond + fails) / 2;
            match beams.whole(middle) {
                Some(wider) => (whole, count) = (wider, middle),
                None => fails = beams.first_of(middle),
            }
        }
        Ok(whole)
    }

    fn of(words: &Acceptor, keep: Keep, below: Option<i64>) -> Self {
        let minimal = Minimal::new(words, keep);
        let fitted = minimal.fitted(&Room::GRAPH);
        Self { minimal, fitted, below }
    }
}

/// The beams by which a lattice can be pruned before anything else is done with it.
struct Beams<'a> {
    slacks: Slacks<'a>,
    sorted: Vec<i64>,
    keep: Keep,
}

impl<'a> Beams<'a> {
    fn new(lattice: &'a Acceptor, keep: Keep) -> Self {
        let slacks = Slacks::new(lattice);
        let sorted = slacks.sorted();
        Self { slacks, sorted, keep }
    }

    /// What is left by the slack at a place of the list, if it can be determinised in time.
    fn whole(&self, place: usize) -> Option<Whole> {
        let words = words_alone(&self.slacks.prune(self.sorted[place]), self.keep).ok()?;
        let below = self.sorted.get(self.beyond(place)).map(|next| self.slacks.least() + next);
        Some(Whole::of(&words, self.keep, below))
    }

    /// The first place with the slack of this one.
    fn first_of(&self, place: usize) -> usize {
        self.sorted.partition_point(|slack| *slack < self.sorted[place])
    }

    /// The first place with a greater slack.
    fn beyond(&self, place: usize) -> usize {
        self.sorted.partition_point(|slack| *slack <= self.sorted[place])
    }
}

/// A lattice with a word on every arc, one path for each string if strings are kept, and one end.
fn words_alone(lattice: &Acceptor, keep: Keep) -> Result<Acceptor, TooLarge> {
    let words = lattice.rm_epsilon(MOST_ARCS)?;
    let paths = match keep {
        Keep::Strings => words.determinize(MOST_ARCS)?,
        Keep::Paths => words,
    };
    Ok(paths.one_final())
}

/// The graph of what fits, whose places are numbered by their times.
fn reduced(Fitted { acceptor, taken_off }: Fitted, pruned: Option<Pruned>) -> Reduced {
    let ordered = Acceptor::acyclic(0, acceptor.into_states());
    let states = (0..).zip(ordered.states());
    let mut placed: Vec<(u32, Arc)> =
        states.flat_map(|(from, state)| state.arcs.iter().map(move |arc| (from, *arc))).collect();
    placed.sort_by_key(|(from, arc)| (arc.source, *from, arc.to));
    let edges = placed.iter().map(|&(from, arc)| edge(from, arc)).collect();
    Reduced {
        graph: Graph { places: ordered.states().len() as u32, edges },
        times: ordered.states().iter().map(|state| state.time).collect(),
        sources: placed.iter().map(|(_, arc)| arc.source).collect(),
        taken_off,
        pruned,
    }
}

/// The edge of an arc that fits.
fn edge(from: u32, Arc { label, to, weight, .. }: Arc) -> Edge {
    Edge { from, to, word: label - 1, cost: weight as u32 }
}

#[cfg(test)]
mod tests {
    use super::super::testing::{cheapest, every_acceptor, language, layered, paths, random_arc, Rng};
    use super::*;
    use crate::lattice::State;
    use crate::limits::{MAX_EDGES, MAX_PLACES};
    use std::collections::BTreeMap;

    fn acceptor_of(graph: &Graph) -> Acceptor {
        let mut states = vec![State::default(); graph.places as usize];
        for edge in &graph.edges {
            let arc = Arc { label: edge.word + 1, to: edge.to, weight: i64::from(edge.cost), source: 0 };
            states[edge.from as usize].arcs.push(arc);
        }
        states[graph.places as usize - 1].final_weight = Some(0);
        Acceptor::new(0, states).expect("no cycle")
    }

    /// The strings of a graph with the least costs, and how many paths there are.
    fn strings(graph: &Graph) -> (BTreeMap<Vec<u32>, i64>, usize) {
        let acceptor = acceptor_of(graph);
        (language(&acceptor), paths(0, acceptor.states()).len())
    }

    #[test]
    fn what_fits_is_whole_and_exact() {
        every_acceptor(|acceptor| {
            let mut expected = language(acceptor);
            expected.remove(&Vec::new());
            match reduce(acceptor, Keep::Strings) {
                Err(misfit) => assert!(misfit == Misfit::NoWord && expected.is_empty()),
                Ok(Reduced { graph, pruned, taken_off, times, sources }) => {
                    assert_eq!((pruned, times, sources.len()), (None, None, graph.edges.len()));
                    let (found, paths) = strings(&graph);
                    assert_eq!(paths, found.len(), "each string on one path");
                    expected.values_mut().for_each(|cost| *cost -= taken_off);
                    assert_eq!(found, expected);
                    assert!(
                        taken_off == 0 || acceptor.states().iter().any(has_negative),
                        "nothing is taken off for nothing"
                    );
                }
            }
        });
    }

    fn has_negative(state: &State) -> bool {
        state.final_weight.is_some_and(|weight| weight < 0) || state.arcs.iter().any(|arc| arc.weight < 0)
    }

    #[test]
    fn every_path_that_fits() {
        every_acceptor(|acceptor| {
            let words = acceptor.rm_epsilon(usize::MAX).expect("no limit").one_final();
            let Ok(reduced) = reduce(acceptor, Keep::Paths) else { return };
            assert_eq!(reduced.pruned, None);
            let all = paths(0, words.states());
            assert_eq!(strings(&reduced.graph).1, all.len());
        });
    }

    /// The statement about what was pruned, against all paths.
    #[test]
    fn everything_up_to_the_weight_said_is_there() {
        let (mut rng, mut pruned_ones) = (Rng(77), 0);
        for case in 0..300 {
            let lattice = layered(&mut rng);
            let mut all = language(&lattice);
            all.remove(&Vec::new());
            for keep in [Keep::Strings, Keep::Paths] {
                let Ok(Reduced { graph, pruned, taken_off, .. }) = reduce(&lattice, keep) else { continue };
                let (found, _) = strings(&graph);
                let limit = pruned.map_or(i64::MAX, |pruned| pruned.complete_up_to);
                pruned_ones += usize::from(pruned.is_some());
                let up_to = |strings: &BTreeMap<Vec<u32>, i64>, off: i64| -> Vec<(Vec<u32>, i64)> {
                    let costs = strings.iter().map(|(string, cost)| (string.clone(), cost - off));
                    costs.filter(|(_, cost)| *cost <= limit).collect()
                };
                assert_eq!(up_to(&found, 0), up_to(&all, taken_off), "case {case}");
                assert!(graph.edges.len() <= MAX_EDGES as usize && graph.places <= MAX_PLACES);
                // no string is cheaper than it is
                assert!(found.iter().all(|(string, cost)| all[string] - taken_off <= *cost), "case {case}");
                if let Some(pruned) = pruned {
                    assert!(!up_to(&found, 0).is_empty() && pruned.kept == graph.edges.len());
                }
            }
        }
        assert!(pruned_ones > 100, "{pruned_ones} pruned");
    }

    /// Where determinising passes its limit a narrower beam is taken, and the statement still holds.
    #[test]
    fn what_cannot_be_determinised_in_time() {
        let mut rng = Rng(3);
        let count = 20_u32;
        let mut states = vec![State::default(); count as usize + 1];
        for number in 0..count {
            for to in number + 1..=(number + 4).min(count) {
                let arcs = (0..9).map(|_| random_arc(&mut rng, to));
                states[number as usize].arcs.extend(arcs);
            }
        }
        states[count as usize].final_weight = Some(0);
        let lattice = Acceptor::new(0, states).expect("no cycle");
        assert_eq!(words_alone(&lattice, Keep::Strings), Err(TooLarge));
        let reduced = reduce(&lattice, Keep::Strings).expect("a narrower beam");
        let pruned = reduced.pruned.expect("pruned");
        // the cheapest paths of both up to that weight
        let within = |cheapest: Vec<(Vec<u32>, i64)>, off: i64| {
            let mut costs = BTreeMap::new();
            let costs_here = cheapest.into_iter().map(|(string, weight)| (string, weight - off));
            costs_here.filter(|(_, cost)| *cost <= pruned.complete_up_to).for_each(|(string, cost)| {
                costs.entry(string).or_insert(cost);
            });
            costs
        };
        let (all, found) = (cheapest(&lattice, 4_000), cheapest(&acceptor_of(&reduced.graph), 40_000));
        let last = all.last().map_or(0, |(_, weight)| *weight - reduced.taken_off);
        let (expected, mut found) = (within(all, reduced.taken_off), within(found, 0));
        found.retain(|_, cost| *cost < last);
        assert!(found.len() > 20, "{} strings", found.len());
        assert!(found.iter().all(|(string, cost)| expected.get(string) == Some(cost)));
        let missing = expected.iter().filter(|(string, cost)| **cost < last && !found.contains_key(*string));
        assert_eq!(missing.count(), 0);
    }

    #[test]
    fn what_has_no_graph() {
        assert_eq!(reduce(&Acceptor::default(), Keep::Strings), Err(Misfit::NoWord));
        let chain = |count: u32, weight: i64| {
            let arc = |to| Arc { label: 1, to, weight, source: to };
            let mut states: Vec<State> =
                (1..=count).map(|to| State { arcs: vec![arc(to)], ..State::default() }).collect();
            states.push(State { final_weight: Some(0), ..State::default() });
            Acceptor::new(0, states).expect("no cycle")
        };
        let fits = reduce(&chain(24, Room::GRAPH.cost), Keep::Strings).expect("24 words");
        assert_eq!((fits.graph.places, fits.taken_off), (25, 0));
        assert_eq!(reduce(&chain(25, 0), Keep::Strings), Err(Misfit::TooLarge { places: 26, edges: 25 }));
        // what edges cannot hold is taken off every path alike
        let dear = reduce(&chain(2, Room::GRAPH.cost + 5), Keep::Paths).expect("two words");
        assert_eq!((dear.taken_off, dear.graph.edges[0].cost), (10, Room::GRAPH.cost as u32));
        // also where a word alone weighs as much as three
        let mut states = chain(3, 60_000).into_states();
        states[0].arcs.push(Arc { label: 2, to: 3, weight: 180_000, source: 9 });
        let uneven = reduce(&Acceptor::new(0, states).expect("no cycle"), Keep::Strings).expect("four edges");
        assert_eq!((uneven.pruned, uneven.taken_off), (None, 180_000 - Room::GRAPH.cost));
        let negative = reduce(&chain(2, -7), Keep::Strings).expect("two words");
        assert_eq!((negative.taken_off, negative.graph.edges[1].cost), (-14, 0));
    }
}
