//! Seeded word graphs.

use super::grammars::Size;
use super::rng::Rng;
use super::utterances::Costs;
use spireyerba::limits::{MAX_EDGES, MAX_PLACES, NOT_HEARD};
use spireyerba::{Edge, Graph};
use std::collections::HashSet;

/// How the edges of a graph are laid.
#[derive(Clone, Copy, Debug, PartialEq, Eq)]
pub enum Form {
    /// From anywhere to anywhere above.
    Dense,
    /// Over one or two places, as a recogniser lays most of them.
    Short,
    /// Few spans with many words each.
    Parallel,
    /// No edge over some step from one place to the next: there is no path.
    Cut,
}

impl Form {
    pub fn any(rng: &mut Rng) -> Self {
        const ANY: [Form; 8] = [
            Form::Dense,
            Form::Dense,
            Form::Short,
            Form::Short,
            Form::Short,
            Form::Parallel,
            Form::Parallel,
            Form::Cut,
        ];
        rng.pick(&ANY)
    }
}

/// A graph over the words below `words`.
pub fn graph(rng: &mut Rng, size: Size, words: u32) -> Graph {
    let (places, edges) = match size {
        Size::Small => (rng.within(2..=5), rng.within(1..=8)),
        Size::Middle => (rng.within(2..=MAX_PLACES), rng.within(1..=MAX_EDGES)),
        Size::Greatest => (MAX_PLACES, MAX_EDGES),
    };
    let known: Vec<u32> = (0..words).collect();
    with_edges(rng, places, edges as usize, &known)
}

/// A graph with up to so many edges, at least one, of some words.
pub fn with_edges(rng: &mut Rng, places: u32, edges: usize, known: &[u32]) -> Graph {
    let (form, costs) = (Form::any(rng), Costs::any(rng));
    let spans = spans(rng, form, places, edges);
    let (mut laid, mut seen) = (Vec::new(), HashSet::new());
    // what is drawn twice is left out: there may not be so many different edges
    for (from, to) in spans {
        let word = rng.pick(known);
        if seen.insert((from, to, word)) {
            laid.push(Edge { from, to, word, cost: costs.draw(rng) });
        }
    }
    rng.shuffle(&mut laid);
    Graph { places, edges: laid }
}

/// So many spans of one form: first those of a path, but in a cut graph.
fn spans(rng: &mut Rng, form: Form, places: u32, count: usize) -> Vec<(u32, u32)> {
    let sides = match form {
        // two places cannot be cut
        Form::Cut if places > 2 => sides_of_cut(rng.within(0..=places - 2), places),
        _ => vec![(0, places - 1)],
    };
    let few = if form == Form::Cut { Vec::new() } else { path(rng, form, places) };
    let mut spans = few.clone();
    while spans.len() < count {
        let (first, last) = rng.pick(&sides);
        spans.push(match form {
            Form::Dense | Form::Cut => span_within(rng, first, last),
            Form::Short => {
                let from = rng.within(first..=last - 1);
                (from, (from + rng.within(1..=2)).min(last))
            }
            Form::Parallel => rng.pick(&few),
        });
    }
    spans.truncate(count);
    spans
}

/// The first and the last place on each side of a cut behind a place, where there are two.
fn sides_of_cut(cut: u32, places: u32) -> Vec<(u32, u32)> {
    [(0, cut), (cut + 1, places - 1)].into_iter().filter(|(first, last)| first < last).collect()
}

/// The spans of a path from place 0 to the last place.
fn path(rng: &mut Rng, form: Form, places: u32) -> Vec<(u32, u32)> {
    let longest = if form == Form::Dense { rng.within(1..=places) } else { rng.within(1..=2) };
    let (mut place, mut spans) = (0, Vec::new());
    while place < places - 1 {
        let to = (place + rng.within(1..=longest)).min(places - 1);
        spans.push((place, to));
        place = to;
    }
    spans
}

/// Any span between two places, of which the second is above the first.
fn span_within(rng: &mut Rng, first: u32, last: u32) -> (u32, u32) {
    let from = rng.within(first..=last - 1);
    (from, rng.within(from + 1..=last))
}

/// The graph, but that the word of an edge was not heard.
pub fn unheard(graph: &Graph, number: usize) -> Graph {
    let mut changed = graph.clone();
    changed.edges[number].cost = NOT_HEARD;
    changed
}

/// The graph, but that every word was heard: those that were not have this cost.
pub fn heard_at(cost: u32, graph: &Graph) -> Graph {
    let mut changed = graph.clone();
    changed.edges.iter_mut().filter(|edge| !edge.is_offered()).for_each(|edge| edge.cost = cost);
    changed
}
