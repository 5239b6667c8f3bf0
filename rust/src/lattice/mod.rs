//! A toolbox for acyclic weighted acceptors, by which what recognisers write becomes a word graph.
//!
//! The names are those of OpenFst, the weights whole numbers in the tropical semiring: they add along a path, and of several
//! paths the least counts. An [`Acceptor`] has no cycle, its states are numbered so that every arc goes up, and each of them
//! is on a path from the start to an end: whatever makes one sees to that ([`Acceptor::new`]). A label is a word, but
//! [`EPSILON`] says nothing. The words of a path are its *string*; a string's *cost* is the least weight of its paths.
//!
//! | step | law |
//! |---|---|
//! | [`Acceptor::new`] | topological order and connection: every path from the start to an end is kept as it is |
//! | [`Acceptor::rm_epsilon`] | the same strings at the same costs, and no label says nothing |
//! | [`Acceptor::determinize`] | the same strings at the same costs, each on one path |
//! | [`Acceptor::push`], [`Acceptor::reweight`] | every path is kept, each with the same amount taken off |
//! | [`Acceptor::minimize`] | the same strings at the same costs, in as few states as one path for each allows |
//! | [`Acceptor::one_final`] | the same strings at the same costs, but the empty one; one end, of weight 0, that no arc leaves |
//! | [`Acceptor::prune`] | every path whose weight is at most the least one's and the beam is kept, and no arc that is on none |
//! | [`Acceptor::intersect`] | the strings that an [`Automaton`] accepts too, at both costs |
//! | [`Acceptor::skip`] | any part of a path's words is passed over, each at a cost in the place of its own |
//! | [`reduce`](reduce()) | a word graph: all strings at their costs, or, if that does not fit, all up to a cost that is said |
//!
//! ```
//! use spireyerba::lattice::{reduce, Acceptor, Arc, Keep, State, EPSILON};
//!
//! // word 1 at weight 4, then a silence, then word 2; or word 1 at weight 9 and then word 2 at once
//! let arc = |label, to, weight| Arc { label, to, weight, source: 0 };
//! let mut states = vec![State::default(); 4];
//! states[0].arcs = vec![arc(1, 1, 4), arc(1, 2, 9)];
//! states[1].arcs = vec![arc(EPSILON, 2, 1)];
//! states[2].arcs = vec![arc(2, 3, 0)];
//! states[3].final_weight = Some(0);
//! let lattice = Acceptor::new(0, states).expect("no cycle");
//!
//! let reduced = reduce(&lattice, Keep::Strings).expect("it fits");
//! let edges: Vec<_> = reduced.graph.edges.iter().map(|edge| (edge.from, edge.to, edge.word, edge.cost)).collect();
//! // a label is a word's number and 1
//! assert_eq!(edges, [(0, 1, 0, 5), (1, 2, 1, 0)]);
//! assert_eq!(reduced.pruned, None);
//! ```

mod acceptor;
mod determinize;
mod intersect;
mod minimize;
mod one_final;
mod prune;
mod push;
mod reduce;
mod rm_epsilon;
mod shortest_distance;
mod skip;
#[cfg(test)]
mod testing;
mod top_sort;
mod widest;

pub use acceptor::{word_label, Acceptor, Arc, State, EPSILON, UNKNOWN};
pub use determinize::TooLarge;
pub use intersect::{Automaton, AutomatonState};
pub use reduce::{reduce, Keep, Misfit, Pruned, Reduced};
pub use top_sort::Cycle;
