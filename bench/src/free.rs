//! The listing written freely, with heaps and vectors: the first tree of every cell bottom up, further trees of a cell
//! only when they are asked for (Jiménez and Marzal 2000; Huang and Chiang 2005, algorithm 3).

use spireyerba::{Body, Grammar, Graph, Heard, Reading, Refusal};
use spireyerba_tests::{grammar, graph_reading, heard, reading};
use std::borrow::Cow;
use std::cmp::Reverse;
use std::collections::BinaryHeap;

/// Writes the readings one after another and answers their number.
pub fn listing(grammar: &[u8], heard: &[u8], wanted: usize, out: &mut [u8]) -> Result<usize, Refusal> {
    let grammar = grammar::from_block(grammar)?;
    let heard = heard::from_block(&grammar, heard)?;
    let readings = least(&grammar, &heard, wanted);
    for (place, found) in out.chunks_exact_mut(heard::reading_length(&grammar, &heard)).zip(&readings) {
        let block = match heard {
            Heard::Slots(_) => reading::pack(&grammar, found),
            Heard::Graph(_) => graph_reading::pack(&grammar, found),
        };
        let (own, behind) = place.split_at_mut(block.len());
        own.copy_from_slice(&block);
        behind.fill(0);
    }
    Ok(readings.len())
}

/// The readings of the `wanted` least derivations, in the order; of slots with their words numbered as in the graph that they
/// can be redrawn as.
pub fn least(grammar: &Grammar, heard: &Heard, wanted: usize) -> Vec<Reading> {
    let graph = match heard {
        Heard::Slots(utterance) => Cow::Owned(Graph::from(utterance)),
        Heard::Graph(graph) => Cow::Borrowed(graph),
    };
    let mut chart = Chart::new(grammar, &graph);
    chart.find_first_trees();
    let root = Span { head: 0, from: 0, to: chart.last };
    let mut readings = Vec::new();
    while readings.len() < wanted && chart.find(root, readings.len()) {
        let weight = chart.cell(root).found[readings.len()].weight;
        let (mut walk, mut path) = (Vec::with_capacity(2 * chart.last), Vec::with_capacity(chart.last));
        chart.spell(root, readings.len(), (&mut walk, &mut path));
        readings.push(Reading::of_path(weight, walk, path));
    }
    readings
}

/// A head, and the places from where to where its trees go.
#[derive(Clone, Copy)]
struct Span {
    head: usize,
    from: usize,
    to: usize,
}

/// A tree of a cell, by the ranks of its parts. The derived order is that of document 02, N6. A leaf has split 0, and the number of
/// its edge on the left.
#[derive(Clone, Copy, PartialEq, Eq, PartialOrd, Ord)]
struct Candidate {
    weight: u32,
    /// The sum of the costs used.
    costs: u32,
    rule: u16,
    split: u16,
    left: u16,
    right: u16,
}

struct PairRule {
    number: u16,
    weight: u32,
    first: usize,
    second: usize,
}

struct WordRule {
    number: u16,
    weight: u32,
    head: usize,
}

/// A word that is offered over a span.
struct Offer {
    number: u16,
    word: usize,
    cost: u32,
}

/// The trees found in order, and those that come next in question once a second one was asked for.
#[derive(Clone, Default)]
struct Cell {
    found: Vec<Candidate>,
    waiting: Option<BinaryHeap<Reverse<Candidate>>>,
}

struct Chart {
    symbols: usize,
    last: usize,
    /// Of each head.
    pairs: Vec<Vec<PairRule>>,
    /// Of each word.
    words: Vec<Vec<WordRule>>,
    parts: Vec<(usize, usize)>,
    /// Of each span.
    offers: Vec<Vec<Offer>>,
    /// The weight and the sum of costs of each cell's first tree, side by side for the first pass.
    first: Vec<Option<(u32, u32)>>,
    cells: Vec<Cell>,
}

impl Chart {
    fn new(grammar: &Grammar, graph: &Graph) -> Self {
        let (symbols, last) = (grammar.symbols as usize, graph.places as usize - 1);
        let spans = last * (last + 1) / 2;
        let mut chart = Self {
            symbols,
            last,
            pairs: (0..symbols).map(|_| Vec::new()).collect(),
            words: (0..grammar.words).map(|_| Vec::new()).collect(),
            parts: Vec::new(),
            offers: (0..spans).map(|_| Vec::new()).collect(),
            first: vec![None; symbols * spans],
            cells: vec![Cell::default(); symbols * spans],
        };
        for (number, rule) in grammar.rules.iter().enumerate() {
            let (number, head, weight) = (number as u16, rule.head as usize, rule.weight);
            match rule.body {
                Body::Pair(first, second) => {
                    let (first, second) = (first as usize, second as usize);
                    chart.parts.push((first, second));
                    chart.pairs[head].push(PairRule { number, weight, first, second });
                }
                Body::Word(word) => {
                    chart.parts.push((0, 0));
                    chart.words[word as usize].push(WordRule { number, weight, head });
                }
            }
        }
        for (number, edge) in (0..).zip(&graph.edges).filter(|(_, edge)| edge.is_offered()) {
            let span = chart.span(edge.from as usize, edge.to as usize);
            chart.offers[span].push(Offer { number, word: edge.word as usize, cost: edge.cost });
        }
        chart
    }

    fn span(&self, from: usize, to: usize) -> usize {
        to * (to - 1) / 2 + from
    }

    fn index(&self, span: Span) -> usize {
        self.span(span.from, span.to) * self.symbols + span.head
    }

    fn cell(&self, span: Span) -> &Cell {
        &self.cells[self.index(span)]
    }

    fn parts(&self, span: Span, candidate: Candidate) -> (Span, Span) {
        let (first, second) = self.parts[candidate.rule as usize];
        let split = candidate.split as usize;
        (Span { head: first, from: span.from, to: split }, Span { head: second, from: split, to: span.to })
    }

    fn find_first_trees(&mut self) {
        for length in 1..=self.last {
            for from in 0..=self.last - length {
                for head in 0..self.symbols {
                    let span = Span { head, from, to: from + length };
                    let mut first: Option<Candidate> = None;
                    self.each_seed(span, |seed| {
                        if first.is_none_or(|first| seed < first) {
                            first = Some(seed);
                        }
                    });
                    let index = self.index(span);
                    self.first[index] = first.map(|first| (first.weight, first.costs));
                    self.cells[index].found.extend(first);
                }
            }
        }
    }

    /// The leaves of a cell, and for each pair rule and split the join of the first trees of both parts.
    fn each_seed(&self, span: Span, mut visit: impl FnMut(Candidate)) {
        let Span { head, from, to } = span;
        for offer in &self.offers[self.span(from, to)] {
            for rule in self.words[offer.word].iter().filter(|rule| rule.head == head) {
                let weight = rule.weight + offer.cost;
                let costs = offer.cost;
                visit(Candidate { weight, costs, rule: rule.number, split: 0, left: offer.number, right: 0 });
            }
        }
        for rule in &self.pairs[head] {
            for split in from + 1..to {
                let left = self.first[self.index(Span { head: rule.first, from, to: split })];
                let right = self.first[self.index(Span { head: rule.second, from: split, to })];
                if let (Some(left), Some(right)) = (left, right) {
                    let (weight, costs) = (rule.weight + left.0 + right.0, left.1 + right.1);
                    visit(Candidate { weight, costs, rule: rule.number, split: split as u16, left: 0, right: 0 });
                }
            }
        }
    }

    /// Finds the trees of a cell up to a rank, counted from 0; whether there are so many.
    fn find(&mut self, span: Span, rank: usize) -> bool {
        let index = self.index(span);
        while self.cells[index].found.len() <= rank {
            let Some(&last) = self.cells[index].found.last() else { return false };
            if self.cells[index].waiting.is_none() {
                let mut seeds = Vec::new();
                self.each_seed(span, |seed| seeds.push(Reverse(seed)));
                seeds.retain(|&Reverse(seed)| seed != last);
                self.cells[index].waiting = Some(seeds.into());
            }
            if last.split != 0 {
                self.add_followers(span, index, last);
            }
            let waiting = self.cells[index].waiting.as_mut().expect("the cell was opened above");
            let Some(Reverse(next)) = waiting.pop() else { return false };
            self.cells[index].found.push(next);
        }
        true
    }

    /// The next right part and, after the first right part only, the next left part: no tree comes twice.
    fn add_followers(&mut self, span: Span, index: usize, last: Candidate) {
        let (left, right) = self.parts(span, last);
        let mut followers = [None, None];
        if self.find(right, last.right as usize + 1) {
            followers[0] = Some(Candidate { right: last.right + 1, ..last });
        }
        if last.right == 0 && self.find(left, last.left as usize + 1) {
            followers[1] = Some(Candidate { left: last.left + 1, ..last });
        }
        for follower in followers.into_iter().flatten() {
            let of_parts = |candidate: Candidate| {
                let (lefts, rights) = (&self.cell(left).found, &self.cell(right).found);
                let (left, right) = (lefts[candidate.left as usize], rights[candidate.right as usize]);
                (left.weight + right.weight, left.costs + right.costs)
            };
            let (weight, costs) = of_parts(follower);
            let weight = last.weight - of_parts(last).0 + weight;
            let waiting = self.cells[index].waiting.as_mut().expect("the cell was opened before");
            waiting.push(Reverse(Candidate { weight, costs, ..follower }));
        }
    }

    /// Appends the walk and the path of a found tree.
    fn spell(&self, span: Span, rank: usize, (walk, path): (&mut Vec<u32>, &mut Vec<u32>)) {
        let candidate = self.cell(span).found[rank];
        walk.push(u32::from(candidate.rule));
        if candidate.split == 0 {
            path.push(u32::from(candidate.left));
            return;
        }
        let (left, right) = self.parts(span, candidate);
        self.spell(left, candidate.left as usize, (walk, path));
        self.spell(right, candidate.right as usize, (walk, path));
    }
}

#[cfg(test)]
mod tests {
    use super::*;
    use spireyerba_tests::compare::over_seeds;
    use spireyerba_tests::nbest;
    use spireyerba_tests::seeded::parsable::{case, graph_case, Shape, AMBIGUOUS, LONG, MANY_SYMBOLS, SPARSE, TINY};
    use spireyerba_tests::seeded::rng::Rng;

    fn shape(rng: &mut Rng) -> &'static Shape {
        if rng.once_in(20) {
            rng.pick(&[&LONG, &MANY_SYMBOLS])
        } else {
            rng.pick(&[&TINY, &AMBIGUOUS, &SPARSE])
        }
    }

    #[test]
    fn lists_what_the_second_implementation_lists() {
        let mut found = 0;
        over_seeds(0..3_000, |rng| {
            let shape = shape(rng);
            let (grammar, utterance) = case(rng, shape);
            let wanted = rng.pick(&[1, 2, 5, 30, 256]);
            let expected = nbest::least(&grammar, &utterance, wanted);
            let readings = least(&grammar, &Heard::Slots(utterance.clone()), wanted);
            assert!(readings.iter().cloned().map(reading::without_path).eq(expected), "{grammar:?} {utterance:?}");
            found += readings.len();
        });
        assert!(found > 10_000, "{found} readings");
    }

    #[test]
    fn lists_of_graphs_likewise() {
        let mut found = 0;
        over_seeds(10_000..13_000, |rng| {
            let shape = shape(rng);
            let (grammar, graph) = graph_case(rng, shape);
            let wanted = rng.pick(&[1, 2, 5, 30, 256]);
            let readings = least(&grammar, &Heard::Graph(graph.clone()), wanted);
            assert_eq!(readings, nbest::least_of_graph(&grammar, &graph, wanted), "{grammar:?} {graph:?}");
            found += readings.len();
        });
        assert!(found > 10_000, "{found} readings");
    }
}
