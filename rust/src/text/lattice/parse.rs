//! The nodes and links of a lattice as they are written.

use super::fields::{fields, Field};
use crate::text::formats::{Draft, Link, MAX_LINKS};
use crate::text::score::LEAST_LOGARITHM;
use crate::text::Fault;
use crate::{Error, Position};
use std::collections::HashMap;

/// A posterior may pass 1 by so much, as rounded ones do.
const ROUNDING: f64 = 1e-3;
/// The words that nobody says.
const EMPTY_WORDS: [&str; 5] = ["!NULL", "<s>", "</s>", "!SENT_START", "!SENT_END"];

/// A number that stands in a text, and where.
type Placed = (u32, Position);

/// What stands before the nodes.
struct Header {
    /// The name of the utterance.
    utterance: Option<String>,
    nodes: Option<Placed>,
    links: Option<Placed>,
    start: Option<Placed>,
    end: Option<Placed>,
    /// The natural logarithm of the scores' base; nothing if scores are no logarithms.
    base: Option<f64>,
    /// By how much acoustic scores, those of the language model and those of pronunciations count.
    scales: [f64; 3],
    /// What is added to the score of each word.
    penalty: Option<(f64, Position)>,
}

impl Default for Header {
    fn default() -> Self {
        let [nodes, links, start, end] = [None; 4];
        Self { utterance: None, nodes, links, start, end, base: Some(1.0), scales: [1.0; 3], penalty: None }
    }
}

impl Header {
    fn take(&mut self, field: &Field) -> Result<(), Error> {
        let placed = || field.number().map(|number| Some((number, field.position)));
        match field.name {
            "UTTERANCE" | "U" => self.utterance = Some(field.value.clone()),
            "N" | "NODES" => self.nodes = placed()?,
            "L" | "LINKS" => self.links = placed()?,
            "start" => self.start = placed()?,
            "end" => self.end = placed()?,
            "base" => self.base = base(field)?,
            "acscale" => self.scales[0] = finite(field)?,
            "lmscale" => self.scales[1] = finite(field)?,
            "prscale" => self.scales[2] = finite(field)?,
            "wdpenalty" => self.penalty = Some((finite(field)?, field.position)),
            "SUBLAT" | "S" => return Err(field.fault(Fault::Sublattice)),
            _ => {}
        }
        Ok(())
    }

    /// The natural logarithm of a likelihood as it is written, if it can be one.
    fn logarithm(&self, written: f64) -> Option<f64> {
        let logarithm = self.base.map_or_else(|| written.ln(), |base| written * base);
        (!logarithm.is_nan()).then_some(logarithm)
    }
}

fn finite(field: &Field) -> Result<f64, Error> {
    Some(field.real()?).filter(|number| number.is_finite()).ok_or_else(|| field.fault(Fault::Real(field.value.clone())))
}

/// The natural logarithm of a base; 0 says that scores are no logarithms.
fn base(field: &Field) -> Result<Option<f64>, Error> {
    match finite(field)? {
        0.0 => Ok(None),
        base if base > 0.0 && base != 1.0 => Ok(Some(base.ln())),
        _ => Err(field.fault(Fault::Base(field.value.clone()))),
    }
}

#[derive(Debug)]
pub(super) struct Node {
    pub(super) number: u32,
    pub(super) time: Option<f64>,
    word: Option<String>,
    pub(super) position: Position,
}

/// A link as it is written.
#[derive(Default)]
struct Written {
    ends: [Option<Placed>; 2],
    word: Option<String>,
    /// Acoustic, of the language model and of the pronunciation, and where each stands.
    scores: [Option<(f64, Position)>; 3],
    /// The share of all paths that go over it.
    posterior: Option<(f64, Position)>,
}

/// A lattice that is being read.
#[derive(Default)]
struct Parser {
    header: Header,
    nodes: Vec<Node>,
    /// Each node's place in the list, by its number.
    known: HashMap<u32, usize>,
    links: Vec<(Written, Position)>,
    /// How many lines there are.
    lines: usize,
}

/// Reads a lattice in which nobody says these words either.
pub(super) fn parse(text: &str, empty_words: &[String]) -> Result<Draft, Error> {
    let mut parser = Parser::default();
    for (before, line) in text.lines().enumerate() {
        parser.lines = before + 1;
        let fields = fields(line, parser.lines)?;
        match fields.first().map(|field| field.name) {
            Some("I") => parser.node(&fields)?,
            Some("J") => parser.link(&fields, line)?,
            _ => fields.iter().try_for_each(|field| parser.header.take(field))?,
        }
    }
    parser.finish(empty_words)
}

impl Parser {
    fn node(&mut self, fields: &[Field]) -> Result<(), Error> {
        let mut node = Node { number: fields[0].number()?, time: None, word: None, position: fields[0].position };
        for field in &fields[1..] {
            match field.name {
                "t" | "time" => node.time = Some(finite(field)?),
                "W" | "WORD" => node.word = Some(field.value.clone()),
                "L" => return Err(field.fault(Fault::Sublattice)),
                _ => {}
            }
        }
        if let Some(earlier) = self.known.insert(node.number, self.nodes.len()) {
            let line = self.nodes[earlier].position.line;
            return Err(fields[0].fault(Fault::RepeatedNode { line }));
        }
        if self.nodes.len() > MAX_LINKS {
            return Err(fields[0].fault(Fault::Links { what: "nodes" }));
        }
        self.nodes.push(node);
        Ok(())
    }

    fn link(&mut self, fields: &[Field], line: &str) -> Result<(), Error> {
        let mut link = Written::default();
        for field in fields {
            let score = || field.real().map(|score| Some((score, field.position)));
            match field.name {
                "S" | "START" => link.ends[0] = Some((field.number()?, field.position)),
                "E" | "END" => link.ends[1] = Some((field.number()?, field.position)),
                "W" | "WORD" => link.word = Some(field.value.clone()),
                "a" | "acoustic" => link.scores[0] = score()?,
                "l" | "language" => link.scores[1] = score()?,
                "r" => link.scores[2] = score()?,
                "p" => link.posterior = score()?,
                _ => {}
            }
        }
        for (end, wanted) in link.ends.iter().zip(["S=", "E="]) {
            if end.is_none() {
                let position = Position { line: self.lines, column: line.trim_end().chars().count() + 1 };
                return Err(Error::at(position, Fault::Expected { wanted, found: None }));
            }
        }
        if self.links.len() == MAX_LINKS {
            return Err(fields[0].fault(Fault::Links { what: "links" }));
        }
        self.links.push((link, fields[0].position));
        Ok(())
    }

    fn finish(self, empty_words: &[String]) -> Result<Draft, Error> {
        self.count("nodes", self.header.nodes, self.nodes.len())?;
        self.count("links", self.header.links, self.links.len())?;
        let said = |word: &&String| !EMPTY_WORDS.contains(&word.as_str()) && !empty_words.contains(word);
        // posteriors count where nothing else does
        let is_scored = self.links.iter().any(|(written, _)| written.scores.iter().any(Option::is_some));
        let link = |(written, position): &(Written, Position)| self.finish_link(written, *position, said, is_scored);
        let links = self.links.iter().map(link).collect::<Result<Vec<Link>, Error>>()?;
        let end_of_text = Position { line: self.lines.max(1), column: 1 };
        let without = |end: fn(&Link) -> u32| {
            let mut is_free = vec![true; self.nodes.len()];
            links.iter().for_each(|link| is_free[end(link) as usize] = false);
            is_free
        };
        let start = self.end("start", self.header.start, &without(|link| link.to), end_of_text)?;
        let end = self.end("end", self.header.end, &without(|link| link.from), end_of_text)?;
        Ok(Draft {
            id: self.header.utterance,
            times: self.nodes.iter().map(|node| node.time).collect(),
            links,
            start: start as u32,
            ends: vec![(end as u32, 0.0)],
            end_of_text: Some(end_of_text),
            scored: Some(("lattice", "scores")),
            is_written_out: false,
        })
    }

    /// Refuses a lattice that has not as many nodes or links as it says.
    fn count(&self, what: &'static str, said: Option<Placed>, found: usize) -> Result<(), Error> {
        match said {
            Some((said, position)) if said as usize != found => {
                Err(Error::at(position, Fault::Count { text: "lattice", what, said: said as usize, found }))
            }
            _ => Ok(()),
        }
    }

    /// The node with a number.
    fn find(&self, (number, position): Placed) -> Result<usize, Error> {
        let found = self.known.get(&number).copied();
        found.ok_or_else(|| Error::at(position, Fault::NoNode(number.to_string())))
    }

    /// The link between nodes with the word that is said on it, and its cost.
    fn finish_link(
        &self,
        written: &Written,
        position: Position,
        said: impl Fn(&&String) -> bool,
        is_scored: bool,
    ) -> Result<Link, Error> {
        let [from, to] = written.ends.map(|end| self.find(end.expect("a link that was read has both ends")));
        let (from, to) = (from?, to?);
        let [link, node] = [&written.word, &self.nodes[to].word].map(|word| word.as_ref().filter(&said));
        if let (Some(link), Some(node)) = (link, node) {
            let fault = Fault::TwoWords { link: link.clone(), node: node.clone() };
            return Err(Error::at(position, fault));
        }
        let word = link.or(node).cloned();
        let penalty = self.header.penalty.filter(|_| word.is_some());
        let mut score = self.term(penalty, 1.0)?;
        for (part, scale) in written.scores.iter().zip(self.header.scales) {
            score += self.term(*part, scale)?;
        }
        if !is_scored {
            score += posterior(written.posterior)?;
        }
        let cost = if score < LEAST_LOGARITHM { f64::INFINITY } else { -score };
        Ok(Link { from: from as u32, to: to as u32, word, cost, position })
    }

    /// What a likelihood adds to a score; one that is not written adds nothing.
    fn term(&self, written: Option<(f64, Position)>, scale: f64) -> Result<f64, Error> {
        let Some((number, position)) = written else { return Ok(0.0) };
        let logarithm = self.header.logarithm(number).map(|logarithm| logarithm * scale);
        // what does not count does not count, if its likelihood is 0 too
        let logarithm = if scale == 0.0 { Some(0.0) } else { logarithm };
        let possible = logarithm.filter(|logarithm| logarithm.is_finite() || *logarithm == f64::NEG_INFINITY);
        possible.ok_or_else(|| Error::at(position, Fault::Real(number.to_string())))
    }

    /// The node that the header names as the start or the end, or else the one that is free on that side.
    fn end(
        &self,
        field: &'static str,
        named: Option<Placed>,
        is_free: &[bool],
        end_of_text: Position,
    ) -> Result<usize, Error> {
        if let Some(named) = named {
            return self.find(named);
        }
        let mut free = (0..self.nodes.len()).filter(|node| is_free[*node]);
        let number = |node: usize| self.nodes[node].number;
        match (free.next(), free.next()) {
            (Some(node), None) => Ok(node),
            (Some(one), Some(other)) => {
                let fault = Fault::TwoEnds { field, nodes: [one, other].map(number) };
                Err(Error::at(self.nodes[other].position, fault))
            }
            (None, _) if self.nodes.is_empty() => {
                let fault = Fault::None { what: "node", refusal: crate::Refusal::UtteranceRange };
                Err(Error::at(end_of_text, fault))
            }
            (None, _) => Err(Error::at(self.links[0].1, Fault::Circle)),
        }
    }
}

/// The natural logarithm of a posterior; one that is not written adds nothing.
fn posterior(written: Option<(f64, Position)>) -> Result<f64, Error> {
    match written {
        None => Ok(0.0),
        Some((share, _)) if (0.0..=1.0 + ROUNDING).contains(&share) => Ok(share.min(1.0).ln()),
        Some((share, position)) => Err(Error::at(position, Fault::Likelihood(share.to_string()))),
    }
}
