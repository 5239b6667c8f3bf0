//! How far what was heard goes along with a grammar.
//!
//! A symbol derives a path between two places, or one that begins there: the first by the rules of Chomsky normal form, from short
//! spans to long ones (CYK), the second through its *left corners*, the symbols with which a derivation of it may begin. This pass
//! is plain Rust over values. It answers where the library has no reading to list, and weighs nothing but words.

use crate::limits::MAX_WORDS;
use crate::{Body, Edge, Grammar, Graph, Refusal, Rule};

/// The symbol of sentences.
const START: usize = 0;
/// A cost that nothing has.
const NONE: u64 = u64::MAX;

/// An edge with its number.
type Numbered = (u32, Edge);

/// The beginning of a path that reaches the furthest place of all that begin a sentence ([`Grammar::prefix`]).
#[derive(Clone, Debug, Default, PartialEq, Eq)]
pub struct Prefix {
    /// The number of each of its edges.
    pub path: Vec<u32>,
    /// The place that it reaches.
    pub place: u32,
    /// The words that may follow its words in a sentence, ascending.
    pub next: Vec<u32>,
    /// Whether its words are a sentence.
    pub may_end: bool,
}

impl Grammar {
    /// How far a word graph goes along with the grammar: of the beginnings of its paths from place 0 to the last one those that
    /// begin some sentence, of any length; of these one that reaches the furthest place, and the cheapest. If no path reaches the
    /// last place, beginnings of any path count. Only words that were heard are on paths. Refuses the grammar as
    /// [`Grammar::to_block`] does; edges that no graph can have are passed over.
    ///
    /// ```
    /// use spireyerba::text::NamedGrammar;
    ///
    /// let doors = NamedGrammar::parse("Entry -> Door Number\nDoor -> \"door\"\nNumber -> \"four\" | \"five\" | Tens Units\n\
    ///     Tens -> \"forty\"\nUnits -> \"four\"")?;
    /// let heard = doors.parse_graph("0 1 door 3\n1 2 forty 9\n1 2 four 2\n2 3 door 1")?;
    /// let prefix = doors.grammar.prefix(&heard)?;
    /// assert_eq!((&prefix.path[..], prefix.place, prefix.may_end), (&[0, 2][..], 2, true));
    /// // behind `door four` nothing more can stand
    /// assert!(prefix.next.is_empty());
    /// # Ok::<(), spireyerba::Error>(())
    /// ```
    pub fn prefix(&self, graph: &Graph) -> Result<Prefix, Refusal> {
        self.to_block()?;
        let corners = Corners::new(self);
        let edges = usable(graph);
        let spans = Spans::new(self, graph.places as usize, &edges);
        let begins = Beginnings::new(&corners, &spans);
        let mut found = Prefix::default();
        if let Some(place) = (1..spans.places).rev().find(|place| begins.cost(0, *place, START) < NONE) {
            begins.path(&edges, [0, place], START, &mut found.path);
            found.place = place as u32;
        }
        let chain = chain(graph, &found.path);
        let spans = Spans::new(self, chain.len() + 1, &chain);
        found.may_end = spans.cost(0, chain.len(), START) < NONE;
        found.next = following(&corners, &spans);
        Ok(found)
    }
}

/// The words that may stand in a sentence behind those of a chain, ascending.
fn following(corners: &Corners, chain: &Spans) -> Vec<u32> {
    let (grammar, symbols) = (chain.grammar, chain.grammar.symbols as usize);
    // of each place of the chain and each symbol the words that follow there in it
    let mut behind = vec![vec![Words::default(); symbols]; chain.places];
    for from in (0..chain.places).rev() {
        let mut direct = vec![Words::default(); symbols];
        grammar.rules.iter().for_each(|rule| direct[rule.head as usize].unite(by_rule(rule, from, chain, &behind)));
        for (symbol, words) in behind[from].iter_mut().enumerate() {
            corners.of(symbol).for_each(|corner| words.unite(direct[corner]));
        }
    }
    (0..grammar.words).filter(|word| behind[0][START].has(*word)).collect()
}

/// The words that follow a chain from a place on by a rule whose first part ends in it, or whose word is not said.
fn by_rule(rule: &Rule, from: usize, chain: &Spans, behind: &[Vec<Words>]) -> Words {
    let mut words = Words::default();
    match rule.body {
        Body::Word(word) if from + 1 == chain.places => words.add(word),
        Body::Word(_) => {}
        Body::Pair(first, second) => {
            let middles = (from + 1..chain.places).filter(|middle| chain.cost(from, *middle, first as usize) < NONE);
            middles.for_each(|middle| words.unite(behind[middle][second as usize]));
        }
    }
    words
}

/// A set of words.
#[derive(Clone, Copy, Default)]
struct Words([u64; MAX_WORDS.div_ceil(u64::BITS) as usize]);

impl Words {
    fn add(&mut self, word: u32) {
        self.0[(word / u64::BITS) as usize] |= 1 << (word % u64::BITS);
    }

    fn has(&self, word: u32) -> bool {
        self.0[(word / u64::BITS) as usize] >> (word % u64::BITS) & 1 == 1
    }

    fn unite(&mut self, others: Self) {
        self.0.iter_mut().zip(others.0).for_each(|(words, others)| *words |= others);
    }
}

/// The edges that a path from place 0 to the last place can have, each with its number; those of any path from place 0 if none
/// reaches the last.
fn usable(graph: &Graph) -> Vec<Numbered> {
    let heard = (0..).zip(graph.edges.iter().copied());
    let mut edges: Vec<Numbered> =
        heard.filter(|(_, edge)| edge.is_offered() && edge.from < edge.to && edge.to < graph.places).collect();
    edges.sort_by_key(|(number, edge)| (edge.from, *number));
    let mut reaches = vec![false; graph.places as usize];
    reaches.last_mut().into_iter().for_each(|last| *last = true);
    for (_, edge) in edges.iter().rev() {
        reaches[edge.from as usize] |= reaches[edge.to as usize];
    }
    if reaches.first() == Some(&true) {
        edges.retain(|(_, edge)| reaches[edge.to as usize]);
    }
    edges
}

/// The edges of a path, one behind another.
fn chain(graph: &Graph, path: &[u32]) -> Vec<Numbered> {
    let edges = (0..).zip(path.iter().map(|number| graph.edges[*number as usize]));
    edges.map(|(from, edge)| (from, Edge { from, to: from + 1, ..edge })).collect()
}

/// The symbols with which a derivation of each symbol may begin, if the rest derives anything; itself is one.
struct Corners(Vec<Vec<bool>>);

impl Corners {
    fn new(grammar: &Grammar) -> Self {
        let symbols = grammar.symbols as usize;
        let productive = productive(grammar);
        let mut corners: Vec<Vec<bool>> =
            (0..symbols).map(|symbol| (0..symbols).map(|other| other == symbol).collect()).collect();
        for rule in &grammar.rules {
            if let Body::Pair(first, second) = rule.body {
                corners[rule.head as usize][first as usize] |= productive[second as usize];
            }
        }
        // what begins what begins a symbol begins it (Warshall)
        for middle in 0..symbols {
            let through = corners[middle].clone();
            let unite = |row: &mut Vec<bool>| row.iter_mut().zip(&through).for_each(|(corner, other)| *corner |= other);
            corners.iter_mut().filter(|row| row[middle]).for_each(unite);
        }
        Self(corners)
    }

    fn of(&self, symbol: usize) -> impl Iterator<Item = usize> + '_ {
        (0..self.0.len()).filter(move |corner| self.0[symbol][*corner])
    }
}

/// Whether each symbol derives anything.
fn productive(grammar: &Grammar) -> Vec<bool> {
    let mut productive = vec![false; grammar.symbols as usize];
    // each round but the last finds one more
    for _ in 0..grammar.symbols {
        for rule in &grammar.rules {
            productive[rule.head as usize] |= match rule.body {
                Body::Word(_) => true,
                Body::Pair(first, second) => productive[first as usize] && productive[second as usize],
            };
        }
    }
    productive
}

/// What the words of the cheapest path between two places cost that a symbol derives.
struct Spans<'a> {
    grammar: &'a Grammar,
    places: usize,
    costs: Vec<u64>,
}

impl<'a> Spans<'a> {
    fn new(grammar: &'a Grammar, places: usize, edges: &[Numbered]) -> Self {
        let costs = vec![NONE; places * places * grammar.symbols as usize];
        let mut spans = Self { grammar, places, costs };
        for (from, to) in short_first(places) {
            let is_between = |(_, edge): &&Numbered| (edge.from as usize, edge.to as usize) == (from, to);
            let between: Vec<&Numbered> = edges.iter().filter(is_between).collect();
            for rule in &grammar.rules {
                let words = between.iter().filter(|(_, edge)| rule.body == Body::Word(edge.word));
                let cost = words.map(|(_, edge)| u64::from(edge.cost)).chain(spans.pairs(rule, from, to)).min();
                spans.lower(from, to, rule.head as usize, cost.unwrap_or(NONE));
            }
        }
        spans
    }

    /// The costs of a rule with two parts, for each place between them.
    fn pairs(&self, rule: &Rule, from: usize, to: usize) -> impl Iterator<Item = u64> + '_ {
        let parts = rule.body.pair();
        let cost = move |middle| {
            let (first, second) = parts?;
            Some(self.cost(from, middle, first).saturating_add(self.cost(middle, to, second)))
        };
        (from + 1..to).map_while(cost)
    }

    fn at(&self, from: usize, to: usize, symbol: usize) -> usize {
        (from * self.places + to) * self.grammar.symbols as usize + symbol
    }

    fn cost(&self, from: usize, to: usize, symbol: usize) -> u64 {
        self.costs[self.at(from, to, symbol)]
    }

    fn lower(&mut self, from: usize, to: usize, symbol: usize, cost: u64) {
        let at = self.at(from, to, symbol);
        self.costs[at] = self.costs[at].min(cost);
    }

    /// Adds the edges of the cheapest path that the symbol derives, which there is.
    fn path(&self, edges: &[Numbered], [from, to]: [usize; 2], symbol: usize, path: &mut Vec<u32>) {
        let cost = self.cost(from, to, symbol);
        for rule in self.grammar.rules.iter().filter(|rule| rule.head as usize == symbol) {
            let is_it = |(_, edge): &&Numbered| {
                (edge.from as usize, edge.to as usize, u64::from(edge.cost)) == (from, to, cost)
                    && rule.body == Body::Word(edge.word)
            };
            if let Some((number, _)) = edges.iter().find(is_it) {
                path.push(*number);
                return;
            }
            let middle = self.pairs(rule, from, to).position(|whole| whole == cost);
            if let (Some(before), Some((first, second))) = (middle, rule.body.pair()) {
                let middle = from + 1 + before;
                self.path(edges, [from, middle], first, path);
                return self.path(edges, [middle, to], second, path);
            }
        }
    }
}

/// The same of a path that begins what a symbol derives.
struct Beginnings<'a> {
    spans: &'a Spans<'a>,
    corners: &'a Corners,
    /// Those whose first rule's first part, if it has two, ends on the path.
    direct: Vec<u64>,
}

impl<'a> Beginnings<'a> {
    fn new(corners: &'a Corners, spans: &'a Spans<'a>) -> Self {
        let mut begins = Self { spans, corners, direct: spans.costs.clone() };
        for (from, to) in short_first(spans.places) {
            for rule in &spans.grammar.rules {
                let at = spans.at(from, to, rule.head as usize);
                begins.direct[at] = begins.pairs(rule, from, to).chain([begins.direct[at]]).min().unwrap_or(NONE);
            }
        }
        begins
    }

    /// The costs of a rule with two parts whose second one begins behind each place.
    fn pairs(&self, rule: &Rule, from: usize, to: usize) -> impl Iterator<Item = u64> + '_ {
        let parts = rule.body.pair();
        let cost = move |middle| {
            let (first, second) = parts?;
            // most first parts are not there
            let passed = Some(self.spans.cost(from, middle, first)).filter(|cost| *cost < NONE)?;
            Some(passed.saturating_add(self.cost(middle, to, second)))
        };
        (from + 1..to).map(move |middle| cost(middle).unwrap_or(NONE))
    }

    fn cost(&self, from: usize, to: usize, symbol: usize) -> u64 {
        let costs = self.corners.of(symbol).map(|corner| self.direct[self.spans.at(from, to, corner)]);
        costs.min().unwrap_or(NONE)
    }

    /// Adds the edges of the cheapest path that begins what the symbol derives, which there is.
    fn path(&self, edges: &[Numbered], [from, to]: [usize; 2], symbol: usize, path: &mut Vec<u32>) {
        let cost = self.cost(from, to, symbol);
        let is_whole = |corner: &usize| self.spans.cost(from, to, *corner) == cost;
        if let Some(corner) = self.corners.of(symbol).find(is_whole) {
            return self.spans.path(edges, [from, to], corner, path);
        }
        for rule in self.spans.grammar.rules.iter().filter(|rule| self.corners.0[symbol][rule.head as usize]) {
            let middle = self.pairs(rule, from, to).position(|whole| whole == cost);
            if let (Some(before), Some((first, second))) = (middle, rule.body.pair()) {
                let middle = from + 1 + before;
                self.spans.path(edges, [from, middle], first, path);
                return self.path(edges, [middle, to], second, path);
            }
        }
    }
}

impl Body {
    /// The parts, if there are two.
    fn pair(self) -> Option<(usize, usize)> {
        match self {
            Self::Word(_) => None,
            Self::Pair(first, second) => Some((first as usize, second as usize)),
        }
    }
}

/// Every span of so many places, before any that holds it.
fn short_first(places: usize) -> impl Iterator<Item = (usize, usize)> {
    (1..places).flat_map(move |length| (0..places - length).map(move |from| (from, from + length)))
}
