//! A lattice as it is written: what every format becomes before it is an acceptor.

use crate::lattice::{
    reduce, word_label, Acceptor, Arc, Cycle, Keep, Misfit, Pruned, Reduced, State, EPSILON, UNKNOWN,
};
use crate::limits::{MAX_EDGES, MAX_PLACES, NOT_HEARD};
use crate::text::utterance::UtteranceReader;
use crate::text::Fault;
use crate::{Error, Heard, Position};

/// A lattice has at most so many links.
pub(in crate::text) const MAX_LINKS: usize = 65_536;
/// A cost whose amount is greater is no sensible one.
const MAX_AMOUNT: f64 = (1_u64 << 40) as f64;
/// Words that nobody says, however a grammar has them.
const NEVER_SAID: [&str; 7] = ["!NULL", "<s>", "</s>", "!SENT_START", "!SENT_END", "<eps>", "<epsilon>"];
/// Words that nobody says, unless a grammar has them, beside those in brackets.
const SILENCES: [&str; 11] = ["*DELETE*", "-pau-", "SIL", "sil", "silB", "silE", "sp", "!SIL", "!ENTER", "!EXIT", "@"];
/// Brackets around what is heard and is no word.
const BRACKETS: [(&str, &str); 3] = [("<", ">"), ("[", "]"), ("++", "++")];
/// The words in brackets that stand for a word that a recogniser does not have.
const UNKNOWN_WORDS: [&str; 6] = ["<unk>", "<UNK>", "[unk]", "[UNK]", "<oov>", "<OOV>"];

/// A link between two nodes.
pub(in crate::text) struct Link {
    pub(in crate::text) from: u32,
    pub(in crate::text) to: u32,
    /// What is said on it, if anything is.
    pub(in crate::text) word: Option<String>,
    /// Minus the natural logarithm of its likelihood, or what it costs by itself.
    pub(in crate::text) cost: f64,
    pub(in crate::text) position: Position,
}

/// A lattice as it is written.
#[derive(Default)]
pub(in crate::text) struct Draft {
    pub(in crate::text) id: Option<String>,
    /// When each node was reached, if that is known.
    pub(in crate::text) times: Vec<Option<f64>>,
    pub(in crate::text) links: Vec<Link>,
    pub(in crate::text) start: u32,
    /// Where paths end, and what that costs.
    pub(in crate::text) ends: Vec<(u32, f64)>,
    pub(in crate::text) end_of_text: Option<Position>,
    /// What the text is, and what of it becomes costs by a scale; nothing if it has costs.
    pub(in crate::text) scored: Option<(&'static str, &'static str)>,
    /// Whether words may begin with a capital or end with a mark that the grammar does not have.
    pub(in crate::text) is_written_out: bool,
}

impl Draft {
    /// A new node.
    pub(in crate::text) fn node(&mut self, time: Option<f64>) -> u32 {
        self.times.push(time);
        self.times.len() as u32 - 1
    }

    /// A new link, unless there are too many.
    pub(in crate::text) fn link(&mut self, link: Link) -> Result<(), Error> {
        if self.links.len() == MAX_LINKS {
            return Err(Error::at(link.position, Fault::Links { what: "links" }));
        }
        self.links.push(link);
        Ok(())
    }

    /// A plain word graph, in which a cost of 65,535 says that the word was not heard.
    pub(in crate::text) fn of_plain(mut self) -> Self {
        let not_heard = self.links.iter_mut().filter(|link| link.cost == f64::from(NOT_HEARD));
        not_heard.for_each(|link| link.cost = f64::INFINITY);
        self
    }

    /// The acceptor over the labels of a grammar's words.
    pub(in crate::text) fn recognised(self, reader: &UtteranceReader) -> Result<Recognised, Error> {
        let scale = self.scale(reader)?;
        let mut states: Vec<State> = self.times.iter().map(|&time| State { time, ..State::default() }).collect();
        let mut dropped: Vec<String> = Vec::new();
        for (source, link) in (0..).zip(&self.links) {
            let label = self.label(link, reader, &mut dropped)?;
            let (Some(label), Some(weight)) = (label, weight(link.cost, scale, link.position)?) else { continue };
            states[link.from as usize].arcs.push(Arc { label, to: link.to, weight, source });
        }
        let end_of_text = self.end_of_text.unwrap_or(Position { line: 1, column: 1 });
        for &(end, cost) in &self.ends {
            let ended = weight(cost, scale, end_of_text)?;
            let known = &mut states[end as usize].final_weight;
            *known = known.iter().copied().chain(ended).min();
        }
        let acceptor = Acceptor::new(self.start, states).map_err(|cycle| self.circle(cycle))?;
        Ok(Recognised { id: self.id, acceptor, dropped, end_of_text })
    }

    /// The scale that the reader has, or 1 if the costs are whole numbers of which none is below 0.
    fn scale(&self, reader: &UtteranceReader) -> Result<f64, Error> {
        if let Some(scale) = reader.scale {
            return Ok(scale);
        }
        let is_cost = |cost: f64| {
            cost == f64::INFINITY || cost == 0.0 || self.scored.is_none() && cost >= 0.0 && cost.fract() == 0.0
        };
        let other = self.links.iter().find(|link| !is_cost(link.cost)).map(|link| link.position);
        let end = self.ends.iter().find(|(_, cost)| !is_cost(*cost)).map(|_| self.end_of_text.unwrap_or(FRONT));
        match other.or(end) {
            None => Ok(1.0),
            Some(position) => {
                let (text, what) = self.scored.unwrap_or(("lattice of fractions or of numbers below 0", "weights"));
                Err(Error::at(position, Fault::NoScale { text, what }))
            }
        }
    }

    /// The label of a link; nothing if its word is left out.
    fn label(&self, link: &Link, reader: &UtteranceReader, dropped: &mut Vec<String>) -> Result<Option<u32>, Error> {
        let Some(word) = link.word.as_deref() else { return Ok(Some(EPSILON)) };
        if NEVER_SAID.contains(&word) || reader.empty_words.iter().any(|empty| empty == word) {
            return Ok(Some(EPSILON));
        }
        let known = reader.known(word).or_else(|| reader.known(&self.spoken(word)));
        if let Some(number) = known {
            return Ok(Some(word_label(number)));
        }
        if is_silence(word) {
            return Ok(Some(EPSILON));
        }
        if reader.drop_unknown && !dropped.iter().any(|known| known == word) {
            dropped.push(word.to_owned());
        }
        match (reader.keep_unknown, reader.drop_unknown) {
            (true, _) => Ok(Some(UNKNOWN)),
            (false, true) => Ok(None),
            (false, false) => Err(Error::at(link.position, Fault::UnknownWord(word.to_owned()))),
        }
    }

    /// A word as it is said: without the number of its pronunciation, and if words are written out without capitals and the
    /// marks behind it.
    fn spoken(&self, word: &str) -> String {
        let variant = word.strip_suffix(')').and_then(|front| front.rsplit_once('('));
        let is_variant = |number: &str| !number.is_empty() && number.bytes().all(|byte| byte.is_ascii_digit());
        let word = variant.filter(|(_, number)| is_variant(number)).map_or(word, |(word, _)| word);
        if self.is_written_out {
            return word.trim_end_matches(['.', ',', '?', '!', ';', ':']).to_lowercase();
        }
        word.to_owned()
    }

    /// That a link is an arc of a cycle.
    fn circle(&self, cycle: Cycle) -> Error {
        let position = self.links.get(cycle.source as usize).map_or(FRONT, |link| link.position);
        Error::at(position, Fault::Circle)
    }
}

/// Where a text begins.
const FRONT: Position = Position { line: 1, column: 1 };

/// Whether nobody says a word, if the grammar does not have it.
fn is_silence(word: &str) -> bool {
    let is_within = |(open, close): &(&str, &str)| {
        word.len() > open.len() + close.len() && word.starts_with(open) && word.ends_with(close)
    };
    SILENCES.contains(&word) || (BRACKETS.iter().any(is_within) && !UNKNOWN_WORDS.contains(&word))
}

/// What a cost weighs by a scale; nothing if it says that the word was not heard.
fn weight(cost: f64, scale: f64, position: Position) -> Result<Option<i64>, Error> {
    let weight = (cost * scale).round();
    match weight {
        f64::INFINITY => Ok(None),
        weight if weight.abs() <= MAX_AMOUNT => Ok(Some(weight as i64)),
        _ => Err(Error::at(position, Fault::CostTooLarge(cost.to_string()))),
    }
}

/// What a recogniser wrote, as an acceptor over the labels of a grammar's words.
#[derive(Clone, Debug, PartialEq)]
pub struct Recognised {
    /// The name of the utterance, if the text has one.
    pub id: Option<String>,
    /// The acceptor. Sources of arcs are the numbers of links.
    pub acceptor: Acceptor,
    /// The words that were left out since the grammar does not have them, each once.
    pub dropped: Vec<String>,
    end_of_text: Position,
}

impl Recognised {
    /// The word graph by which readings are listed: exactly, or, unless that is asked for, as much as fits.
    pub fn reduce(&self, keep: Keep, exact: bool) -> Result<Lattice, Error> {
        let reduced = reduce(&self.acceptor, keep).map_err(|misfit| self.misfit(misfit))?;
        if let Some(Pruned { of, .. }) = reduced.pruned.filter(|_| exact) {
            return Err(Error::at(self.end_of_text, Fault::NotExact { edges: of }));
        }
        let Reduced { graph, times, sources, taken_off, pruned } = reduced;
        let (id, dropped) = (self.id.clone(), self.dropped.clone());
        Ok(Lattice { id, heard: Heard::Graph(graph), times, sources, taken_off, pruned, dropped })
    }

    fn misfit(&self, misfit: Misfit) -> Error {
        let fault = match misfit {
            Misfit::NoWord => {
                Fault::None { what: "word on a path to the end", refusal: crate::Refusal::UtteranceRange }
            }
            Misfit::TooLarge { places, edges } => Fault::DoesNotFit { places, edges },
        };
        Error::at(self.end_of_text, fault)
    }
}

/// One of several that a text has which cannot be read.
#[derive(Clone, Debug, PartialEq)]
pub struct Unread {
    /// The name of the utterance, if the text has one.
    pub id: Option<String>,
    /// Why.
    pub error: Box<Error>,
}

impl Unread {
    /// What has this name, if any, cannot be read.
    pub fn new(id: Option<String>, error: Error) -> Self {
        Self { id, error: Box::new(error) }
    }
}

/// What was heard, and what it is of what a text has.
#[derive(Clone, Debug, PartialEq)]
pub struct Lattice {
    /// The name of the utterance, if the text has one.
    pub id: Option<String>,
    /// Slots, or a word graph.
    pub heard: Heard,
    /// When each place of the graph was reached, if that is known.
    pub times: Option<Vec<f64>>,
    /// For each edge of a graph that was made of a lattice, or of which words were left out, the number of the link whose word it
    /// has, as links stand in the text.
    pub sources: Vec<u32>,
    /// By how much all weights are less than in the text, since no edge could hold them otherwise; below 0, greater.
    pub taken_off: i64,
    /// What was pruned, if anything was.
    pub pruned: Option<Pruned>,
    /// The words that were left out since the grammar does not have them, each once.
    pub dropped: Vec<String>,
}

/// So many words that were left out are named in a note.
const NAMED_WORDS: usize = 8;

/// What is there as it was written.
impl From<Heard> for Lattice {
    fn from(heard: Heard) -> Self {
        Self { id: None, heard, times: None, sources: Vec::new(), taken_off: 0, pruned: None, dropped: Vec::new() }
    }
}

impl Lattice {
    /// The weight up to which every reading is there, if some may be missing.
    pub fn complete_up_to(&self) -> Option<i64> {
        self.pruned.map(|pruned| pruned.complete_up_to)
    }

    /// What a user is to be told, a line each.
    pub fn notes(&self) -> Vec<String> {
        let pruned = self.pruned.map(|Pruned { kept, of, complete_up_to, untried }| {
            let limits = format!("a word graph has {MAX_PLACES} places and {MAX_EDGES} edges");
            let untried = match untried {
                0 => String::new(),
                _ => format!("; more may fit, but {untried} wider beams were not tried, since that takes too long"),
            };
            format!(
                "kept {kept} of {of} edges: every reading of weight up to {complete_up_to} is in the list ({limits}){untried}"
            )
        });
        let amount = self.taken_off.unsigned_abs();
        let off = match self.taken_off {
            0 => None,
            1.. => Some(format!("every weight is {amount} less than the lattice says, since no edge can hold more")),
            _ => Some(format!("every weight is {amount} more than the lattice says, since no edge weighs less than 0")),
        };
        let named = self.dropped.iter().take(NAMED_WORDS).map(String::as_str).collect::<Vec<_>>().join(", ");
        let dropped = match self.dropped.len().checked_sub(NAMED_WORDS) {
            _ if self.dropped.is_empty() => None,
            None | Some(0) => Some(format!("left out, for the grammar does not have them: {named}")),
            Some(more) => Some(format!("left out, for the grammar does not have them: {named} and {more} more")),
        };
        [pruned, off, dropped].into_iter().flatten().collect()
    }
}
