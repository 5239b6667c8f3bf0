//! The widest beam that fits.
//!
//! A minimal acceptor is pruned by a beam and minimised again; if every path is kept, it is pruned alone. Law: of all its slacks the
//! greatest is taken by which this fits into a word graph: into its places and edges, with costs that edges can have. How much is left
//! need not grow with the beam, for with more behind them states may become alike; so every beam is tried from the widest on, but for
//! those by which too much is left for certain. Two states of which different strings weigh the least from there on are two by every
//! beam that leaves both, and so are arcs between such states, of different words or weights: how many there are grows with the beam.
//! If all that is tried has more arcs than are allowed, what the beams that are left leave has to fit before it is minimised again,
//! but for the narrowest, and those of which that is not so are counted.

use super::{Acceptor, Arc, Keep, Misfit, State};
use crate::limits::{MAX_EDGES, MAX_PLACES, NOT_HEARD};
use std::collections::{HashMap, HashSet};

/// What a word graph has room for.
pub(super) struct Room {
    pub(super) places: usize,
    pub(super) edges: usize,
    /// The greatest cost of an edge.
    pub(super) cost: i64,
}

impl Room {
    /// The library's, and the greatest cost of a word that was heard.
    pub(super) const GRAPH: Self =
        Self { places: MAX_PLACES as usize, edges: MAX_EDGES as usize, cost: NOT_HEARD as i64 - 1 };

    fn has(&self, places: usize, edges: usize) -> bool {
        places <= self.places && edges <= self.edges
    }
}

/// What fits into a graph.
pub(super) struct Fitted {
    pub(super) acceptor: Acceptor,
    /// By how much every path weighs less than in the lattice.
    pub(super) taken_off: i64,
}

/// What is left by the widest beam that fits.
pub(super) struct Widest {
    pub(super) fitted: Fitted,
    /// The weight below which nothing is missing.
    pub(super) below: i64,
    /// So many wider beams may fit and were not tried.
    pub(super) untried: usize,
}

/// A pushed acceptor with one end, and if each string is kept once a minimal one.
pub(super) struct Minimal {
    pub(super) acceptor: Acceptor,
    /// How far each state was from the end before weights were pushed.
    wanted: Vec<i64>,
    /// What was taken off every path.
    least: i64,
    keep: Keep,
}

impl Minimal {
    /// That of an acceptor with one end.
    pub(super) fn new(words: &Acceptor, keep: Keep) -> Self {
        let wanted = words.distance_to_final();
        let (acceptor, least) = words.push();
        Self { acceptor, wanted, least, keep }.minimal()
    }

    fn minimal(self) -> Self {
        if self.keep == Keep::Paths {
            return self;
        }
        let (acceptor, first) = self.acceptor.minimize_by(&self.acceptor.shortest_distance());
        let wanted = first.iter().map(|state| self.wanted[*state as usize]).collect();
        Self { acceptor, wanted, ..self }
    }

    /// What is left by a beam, where states have these slacks: in a pushed acceptor their distances from the start.
    fn part(&self, slacks: &[i64], beam: i64) -> Self {
        let acceptor = self.acceptor.filtered(|state, arc| slacks[state] + arc.weight <= beam, |_, _| true);
        // a state is left exactly if its own slack is within the beam
        let left = self.wanted.iter().zip(slacks).filter(|(_, slack)| **slack <= beam);
        let wanted = left.map(|(wanted, _)| *wanted).collect();
        Self { acceptor, wanted, ..*self }.minimal()
    }

    /// The same with weights that edges can have, as near to the lattice's own as can be; nothing if it does not fit.
    pub(super) fn fitted(&self, room: &Room) -> Option<Fitted> {
        if !room.has(self.acceptor.states().len(), self.acceptor.arcs()) {
            return None;
        }
        let Self { wanted, least, .. } = self;
        // the lattice's own, and the whole weight before that, as late as it can stand
        let bounded: Vec<i64> = wanted.iter().map(|wanted| (*wanted).clamp(0, (*least).max(0))).collect();
        let late = vec![(*least).max(0); wanted.len()];
        let tried = [wanted, &bounded, &late].into_iter().filter_map(|wanted| self.acceptor.within(wanted, room.cost));
        let exact = tried.into_iter().find(|(_, weight)| weight == least);
        let (acceptor, weight) = exact.or_else(|| self.acceptor.nearest_within(*least, room.cost))?;
        Some(Fitted { acceptor, taken_off: least - weight })
    }

    /// The part by the widest beam that fits.
    pub(super) fn widest(&self, room: &Room, most_tried: usize) -> Result<Widest, Misfit> {
        let slacks = self.acceptor.shortest_distance();
        let search = Search::new(&self.acceptor, &slacks, self.keep);
        let beams = search.beams();
        let (mut end, mut tried, mut untried) = (search.possible(&beams, room), 0, 0);
        while let Some(mut place) = end.checked_sub(1) {
            if tried >= most_tried {
                let small = beams[..end].partition_point(|beam| search.is_small_as_it_is(*beam, room));
                // the narrowest is tried in any case
                place = small.saturating_sub(1);
                untried += place.abs_diff(end - 1);
            } else if !search.is_small(beams[place], room, &mut tried) {
                end = place;
                continue;
            }
            tried += self.acceptor.arcs();
            if let Some(fitted) = self.part(&slacks, beams[place]).fitted(room) {
                let below = beams.get(place + 1).map_or(i64::MAX, |next| self.least + next);
                return Ok(Widest { fitted, below, untried });
            }
            end = place;
        }
        let least = self.part(&slacks, 0).acceptor;
        Err(Misfit::TooLarge { places: least.states().len(), edges: least.arcs() })
    }
}

/// The label of an arc, the class of its end, and its weight.
type Behind = (u32, u32, i64);

/// A search through the beams of a pushed acceptor.
struct Search<'a> {
    states: &'a [State],
    slacks: &'a [i64],
    /// The states from which the same strings weigh the least: those that may become one.
    classes: Vec<u32>,
    keep: Keep,
}

impl<'a> Search<'a> {
    fn new(acceptor: &'a Acceptor, slacks: &'a [i64], keep: Keep) -> Self {
        let states = acceptor.states();
        let classes = match keep {
            Keep::Paths => (0..states.len() as u32).collect(),
            Keep::Strings => least_strings(states),
        };
        Self { states, slacks, classes, keep }
    }

    /// The arcs with the states that they leave.
    fn arcs(&self) -> impl Iterator<Item = (usize, &'a Arc)> {
        self.states.iter().enumerate().flat_map(|(state, of)| of.arcs.iter().map(move |arc| (state, arc)))
    }

    /// All slacks, each once, the least first.
    fn beams(&self) -> Vec<i64> {
        let mut beams: Vec<i64> = self.arcs().map(|(state, arc)| self.slacks[state] + arc.weight).collect();
        beams.sort_unstable();
        beams.dedup();
        beams
    }

    /// So many of the beams, the narrowest, may leave what fits; by the others too much is left for certain.
    fn possible(&self, beams: &[i64], room: &Room) -> usize {
        let mut arcs: Vec<(i64, usize, &Arc)> =
            self.arcs().map(|(state, arc)| (self.slacks[state] + arc.weight, state, arc)).collect();
        arcs.sort_unstable_by_key(|(slack, ..)| *slack);
        let mut places = HashSet::from([self.classes[0]]);
        let mut edges = HashSet::new();
        for (number, &(slack, state, arc)) in arcs.iter().enumerate() {
            let (from, to) = (self.classes[state], self.classes[arc.to as usize]);
            // of paths no two arcs become one
            let number = if self.keep == Keep::Paths { number } else { 0 };
            places.insert(to);
            edges.insert((from, arc.label, to, arc.weight, number));
            if !room.has(places.len(), edges.len()) {
                return beams.partition_point(|beam| *beam < slack);
            }
        }
        beams.len()
    }

    /// Whether what is left by a beam has room but for its costs, without being minimised again. Then so has what a narrower leaves.
    fn is_small_as_it_is(&self, beam: i64, room: &Room) -> bool {
        let places = self.slacks.iter().filter(|slack| **slack <= beam).count();
        room.has(places, self.arcs().filter(|(state, arc)| self.slacks[*state] + arc.weight <= beam).count())
    }

    /// Whether what is left by a beam, minimised, has room but for its costs. It ends as soon as there are too many, and counts the
    /// states and arcs that it looks at. Paths are not minimised, and of them every possible beam leaves what has room.
    fn is_small(&self, beam: i64, room: &Room, tried: &mut usize) -> bool {
        if self.keep == Keep::Paths {
            return true;
        }
        let mut class_of = vec![0; self.states.len()];
        let mut known: HashMap<Vec<Behind>, u32> = HashMap::new();
        let (mut edges, mut behind) = (0, Vec::new());
        for (state, of) in self.states.iter().enumerate().rev().filter(|(state, _)| self.slacks[*state] <= beam) {
            behind.clear();
            *tried += 1 + of.arcs.len();
            let left = of.arcs.iter().filter(|arc| self.slacks[state] + arc.weight <= beam);
            behind.extend(left.map(|arc| (arc.label, class_of[arc.to as usize], arc.weight)));
            behind.sort_unstable();
            behind.dedup();
            class_of[state] = match known.get(&behind) {
                Some(class) => *class,
                None => {
                    edges += behind.len();
                    let class = known.len() as u32;
                    known.insert(behind.clone(), class);
                    if !room.has(known.len(), edges) {
                        return false;
                    }
                    class
                }
            };
        }
        true
    }
}

/// Classes of states by the strings that weigh the least from them on, which in a pushed acceptor is nothing.
fn least_strings(states: &[State]) -> Vec<u32> {
    let mut classes = vec![0; states.len()];
    let mut known: HashMap<Vec<(u32, u32)>, u32> = HashMap::new();
    for (state, of) in states.iter().enumerate().rev() {
        let least = of.arcs.iter().filter(|arc| arc.weight == 0);
        let mut behind: Vec<(u32, u32)> = least.map(|arc| (arc.label, classes[arc.to as usize])).collect();
        behind.sort_unstable();
        behind.dedup();
        let next = known.len() as u32;
        classes[state] = *known.entry(behind).or_insert(next);
    }
    classes
}

#[cfg(test)]
mod tests {
    use super::super::prune::Slacks;
    use super::super::testing::{every_acceptor, layered, Rng};
    use super::*;

    /// The steps before pruning.
    fn words(lattice: &Acceptor, keep: Keep) -> Acceptor {
        let words = lattice.rm_epsilon(usize::MAX).expect("no limit");
        match keep {
            Keep::Strings => words.determinize(usize::MAX).expect("no limit").one_final(),
            Keep::Paths => words.one_final(),
        }
    }

    /// Every beam, the narrowest first, and whether what it leaves fits: pruned, and counted as it is then or minimised again,
    /// by the steps that have laws of their own.
    fn every_beam(words: &Acceptor, keep: Keep, room: &Room, is_again: bool) -> Vec<(i64, bool)> {
        let (pushed, _) = words.push();
        let minimal = if keep == Keep::Strings { pushed.minimize() } else { pushed };
        let mut beams = Slacks::new(&minimal).sorted();
        beams.dedup();
        let fits = |beam: i64| {
            let part = minimal.prune(beam);
            let again = if keep == Keep::Strings { part.minimize() } else { part.clone() };
            let counted = if is_again { &again } else { &part };
            room.has(counted.states().len(), counted.arcs()) && again.nearest_within(0, room.cost).is_some()
        };
        beams.into_iter().map(|beam| (beam, fits(beam))).collect()
    }

    /// What was met in some comparisons.
    #[derive(Debug, Default)]
    struct Met {
        pruned: usize,
        refused: usize,
        /// A narrower beam than the widest does not fit.
        uneven: usize,
        by_costs: usize,
        /// A wider beam would have fitted and was not tried.
        untried: usize,
    }

    /// Holds the widest beam to every beam.
    fn compare(lattice: &Acceptor, keep: Keep, room: &Room, met: &mut Met) {
        let words = words(lattice, keep);
        let minimal = Minimal::new(&words, keep);
        if words.is_empty() || minimal.fitted(room).is_some() {
            return;
        }
        let again = every_beam(&words, keep, room, true);
        for (most_tried, is_again) in [(usize::MAX, true), (0, false)] {
            let mut beams = every_beam(&words, keep, room, is_again);
            // the narrowest is tried in any case
            beams[0] = again[0];
            let widest = beams.iter().rposition(|(_, fits)| *fits);
            let found = minimal.widest(room, most_tried);
            assert_eq!(found.is_ok(), widest.is_some());
            let (Ok(Widest { fitted, below, untried }), Some(widest)) = (found, widest) else {
                met.refused += 1;
                continue;
            };
            // what was not tried is counted
            let passed_over = again[widest + 1..].iter().filter(|(_, fits)| *fits).count();
            assert!(passed_over <= untried && (untried == 0 || most_tried == 0 && keep == Keep::Strings), "{untried}");
            met.untried += usize::from(passed_over > 0);
            assert_eq!(below, beams.get(widest + 1).map_or(i64::MAX, |(next, _)| minimal.least + next));
            assert!(room.has(fitted.acceptor.states().len(), fitted.acceptor.arcs()));
            let arcs = fitted.acceptor.states().iter().flat_map(|state| &state.arcs);
            assert!(arcs.into_iter().all(|arc| (0..=room.cost).contains(&arc.weight)));
            met.pruned += 1;
            met.uneven += usize::from(beams[..widest].iter().any(|(_, fits)| !fits));
            let unlimited = Room { cost: i64::MAX / 4, ..*room };
            met.by_costs += usize::from(minimal.widest(&unlimited, most_tried).is_ok_and(|wider| wider.below > below));
        }
    }

    #[test]
    fn no_wider_beam_fits() {
        let (mut met, mut rng) = (Met::default(), Rng(8));
        let room = |(places, edges, cost)| Room { places, edges, cost };
        let small = [(3, 4, 1_000), (4, 6, 1_000), (5, 7, 3), (6, 9, 5)].map(room);
        every_acceptor(|acceptor| {
            for keep in [Keep::Strings, Keep::Paths] {
                small.iter().for_each(|room| compare(acceptor, keep, room, &mut met));
            }
        });
        for _ in 0..60 {
            let lattice = layered(&mut rng);
            for room in [Room::GRAPH, room((9, 30, 9_000)), room((12, 50, 2_500))] {
                [Keep::Strings, Keep::Paths].iter().for_each(|keep| compare(&lattice, *keep, &room, &mut met));
            }
        }
        println!("{met:?}");
        assert!(met.pruned > 1_000 && met.refused > 100 && met.uneven > 10 && met.by_costs > 100, "{met:?}");
        assert!(met.untried > 10, "{met:?}");
    }
}
