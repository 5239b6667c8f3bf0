//! The text of a word graph.

use super::formats::{Draft, Format, Link};
use super::lattice::is_lattice;
use super::scan::{digits, weight, Token, Tokens, UTTERANCE};
use super::utterance::UtteranceReader;
use super::{without_mark, Fault, NamedGrammar};
use crate::limits::{MAX_EDGES, MAX_PLACES};
use crate::{Candidate, Edge, Error, Graph, Heard, Position, Refusal};
use std::borrow::Cow;

/// Whether a text is a word graph: it has a line with two numbers and a word, which no text of slots can have, or it is a
/// lattice of HTK.
pub fn is_graph(text: &str) -> bool {
    let text = without_mark(text);
    text.lines().any(begins_with_edge) || is_lattice(text)
}

/// Whether two numbers and a word stand at the front of a line.
pub(super) fn begins_with_edge(line: &str) -> bool {
    let number = |item: Option<&str>| item.and_then(digits).is_some();
    let mut items = line.split_whitespace();
    let is_edge = number(items.next()) && number(items.next());
    is_edge && items.next().is_some_and(|item| !item.starts_with(['|', ';', '#']))
}

/// A word graph that is being read.
#[derive(Default)]
struct Lines {
    edges: Vec<Edge>,
    /// The line in which each edge stands, and its number among those that are written.
    lines: Vec<usize>,
    numbers: Vec<u32>,
    /// How many edges are written.
    written: u32,
    /// The last place that an edge reaches, of those that are left out too.
    reached: u32,
    /// The last place and where it stands, if the text has it.
    last: Option<(u32, Position)>,
    /// Every edge as it is written, if that is asked for; then words that the grammar does not have are left out.
    links: Option<Vec<Link>>,
}

impl UtteranceReader<'_> {
    /// Reads the text of a word graph, or a lattice in any format.
    pub fn read_graph(&self, text: &str) -> Result<Graph, Error> {
        let format = self.format.unwrap_or_else(|| Format::of(text));
        if matches!(format, Format::Slots) {
            return self.read_plain_graph(without_mark(text));
        }
        match self.read_heard(text)?.heard {
            Heard::Graph(graph) => Ok(graph),
            Heard::Slots(utterance) => Ok(Graph::from(&utterance)),
        }
    }

    /// Reads a word graph of whole numbers.
    pub(super) fn read_plain_graph(&self, text: &str) -> Result<Graph, Error> {
        self.read_numbered_graph(text).map(|(graph, _)| graph)
    }

    /// Reads the same, with the number that each edge has in the text if words were left out.
    pub(super) fn read_numbered_graph(&self, text: &str) -> Result<(Graph, Vec<u32>), Error> {
        let (graph, last, _) = self.graph_lines(text, Lines::default())?;
        let is_whole = graph.edges.len() == graph.written as usize;
        Ok((Graph { places: last + 1, edges: graph.edges }, if is_whole { Vec::new() } else { graph.numbers }))
    }

    /// Reads the same as a lattice, with the words that the grammar does not have.
    pub(super) fn graph_draft(&self, text: &str) -> Result<Draft, Error> {
        let as_written = Lines { links: Some(Vec::new()), ..Lines::default() };
        let (graph, last, end) = self.graph_lines(text, as_written)?;
        let (times, links) = (vec![None; last as usize + 1], graph.links.unwrap_or_default());
        Ok(Draft { times, links, ends: vec![(last, 0.0)], end_of_text: Some(end), ..Draft::default() })
    }

    /// Reads the lines of a graph; answers its last place and where the text ends, too.
    fn graph_lines(&self, text: &str, mut graph: Lines) -> Result<(Lines, u32, Position), Error> {
        let mut end = Position { line: 1, column: 1 };
        for (before, line) in text.lines().enumerate() {
            end.line = before + 1;
            self.graph_line(&mut graph, &mut Tokens::new(line, end.line, &UTTERANCE))?;
        }
        let last = graph.last_place(end)?;
        Ok((graph, last, end))
    }

    /// Reads what stands in a line, with semicolons between: edges, and the last place.
    fn graph_line(&self, graph: &mut Lines, tokens: &mut Tokens) -> Result<(), Error> {
        let mut next = tokens.next()?;
        while let Some(first) = next {
            next = match self.edge(graph, first, tokens)? {
                Some(Token::Mark(';')) => tokens.next()?,
                None => None,
                other => return tokens.expected("`;` or the end of the line", other),
            };
        }
        Ok(())
    }

    /// Reads an edge or the last place, whose first token is at hand; answers the token behind it.
    fn edge<'b>(&self, graph: &mut Lines, first: Token, tokens: &mut Tokens<'b>) -> Result<Option<Token<'b>>, Error> {
        let begin = tokens.position();
        let from = place(first, tokens)?;
        let second = match tokens.next()? {
            Some(second @ (Token::Bare(_) | Token::Quoted(_))) => second,
            other => return graph.end(from, begin).map(|()| other),
        };
        let to = place(second, tokens)?;
        if from >= to {
            return Err(tokens.fault(Fault::EdgePlaces { from, to }));
        }
        if to >= MAX_PLACES {
            return Err(tokens.fault(too_many("places", MAX_PLACES)));
        }
        let said = match tokens.next()? {
            Some(Token::Bare(word)) => Cow::Borrowed(word),
            Some(Token::Quoted(word)) => word,
            other => return tokens.expected("a word", other),
        };
        let word = match graph.links {
            Some(_) => self.known(&said),
            None => self.number(&said).map_err(|fault| tokens.fault(fault))?,
        };
        let (cost, behind) = match tokens.next()? {
            Some(Token::Bare(item)) => (weight(item, "cost").map_err(|fault| tokens.fault(fault))?, tokens.next()?),
            other @ (None | Some(Token::Mark(';'))) => (0, other),
            other => return tokens.expected("a cost", other),
        };
        if let Some(links) = &mut graph.links {
            links.push(Link { from, to, word: Some(said.into_owned()), cost: cost.into(), position: begin });
        }
        graph.lay(from, to, word.map(|word| Candidate { word, cost }), begin).map(|()| behind)
    }
}

impl Lines {
    /// Adds an edge, unless its word is left out.
    fn lay(&mut self, from: u32, to: u32, taken: Option<Candidate>, begin: Position) -> Result<(), Error> {
        self.reached = self.reached.max(to);
        let number = self.written;
        self.written += 1;
        let Some(Candidate { word, cost }) = taken else { return Ok(()) };
        let edge = Edge { from, to, word, cost };
        let known = self.edges.iter().position(|known| known.is_alike(edge));
        let fault = match known.map(|known| self.lines[known]) {
            Some(line) => Fault::RepeatedEdge { line },
            None if self.edges.len() == MAX_EDGES as usize => too_many("edges", MAX_EDGES),
            None => {
                self.edges.push(edge);
                self.lines.push(begin.line);
                self.numbers.push(number);
                return Ok(());
            }
        };
        Err(Error::at(begin, fault))
    }

    /// Takes the last place.
    fn end(&mut self, last: u32, begin: Position) -> Result<(), Error> {
        match self.last.replace((last, begin)) {
            Some((_, Position { line, .. })) => Err(Error::at(begin, Fault::SecondEnd { line })),
            None => Ok(()),
        }
    }

    /// The last place of a graph whose text ends there.
    fn last_place(&self, end: Position) -> Result<u32, Error> {
        let reached = self.reached;
        let (last, at) = self.last.unwrap_or((reached, end));
        let fault = if self.links.as_ref().map_or(self.edges.is_empty(), Vec::is_empty) {
            Fault::None { what: "edge", refusal: Refusal::UtteranceRange }
        } else if last >= MAX_PLACES {
            too_many("places", MAX_PLACES)
        } else if last < reached {
            Fault::EarlyEnd { reached }
        } else {
            return Ok(last);
        };
        Err(Error::at(at, fault))
    }
}

/// Whether what is wrong in a word graph of whole numbers need not be wrong in an FST: how its states are numbered, how many
/// there are, and that arcs are alike.
pub(super) fn is_plain_fault(fault: &Fault) -> bool {
    let too_large = matches!(fault, Fault::TooMany { within: GRAPH, .. });
    too_large || matches!(fault, Fault::EdgePlaces { .. } | Fault::EarlyEnd { .. } | Fault::RepeatedEdge { .. })
}

const GRAPH: &str = "a word graph";

fn too_many(what: &'static str, limit: u32) -> Fault {
    Fault::TooMany { what, within: GRAPH, limit, refusal: Refusal::UtteranceRange }
}

/// The number of a place.
fn place(token: Token, tokens: &Tokens) -> Result<u32, Error> {
    match token {
        Token::Bare(item) => match digits(item) {
            // what 32 bits do not hold is above every place
            Some(number) => Ok(number.unwrap_or(u32::MAX)),
            None => Err(tokens.fault(Fault::Number(item.to_owned()))),
        },
        other => tokens.expected("the number of a place", Some(other)),
    }
}

impl NamedGrammar {
    /// Reads the text of a word graph of whole numbers over this grammar's words.
    pub fn parse_graph(&self, text: &str) -> Result<Graph, Error> {
        UtteranceReader::new(self).read_plain_graph(without_mark(text))
    }

    /// The text of a word graph over this grammar's words, from which [`parse_graph`](Self::parse_graph) reads it again:
    /// a line for each edge, and one for the last place.
    pub fn graph_text(&self, graph: &Graph) -> String {
        let mut text: String = graph.edges.iter().map(|edge| self.edge_text(*edge) + "\n").collect();
        text += &format!("{}\n", graph.places - 1);
        text
    }

    /// An edge as it is written in a word graph's text.
    pub fn edge_text(&self, Edge { from, to, word, cost }: Edge) -> String {
        format!("{from} {to} {}", self.candidate_text(Candidate { word, cost }))
    }
}
