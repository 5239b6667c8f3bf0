//! Acceptors and transducers as OpenFst's `fstprint` writes them, and Kaldi's lattices as text.
//!
//! A line has the states that an arc leaves and enters, a label, or of a transducer two, of which the second is the word, and a
//! weight, which is 0 if it is left out; or a state where paths end, and a weight. The state of the first arc is the start.
//! Kaldi's weights have several parts with commas between them, of which the first two are added: the graph's and the
//! acoustic cost; the third is the transition of each frame. Before a lattice of Kaldi stands its name in a line, and behind it
//! an empty line.

use super::{Draft, Link, Unread};
use crate::text::items::{end_of, lines, Item, Line};
use crate::text::scan::digits;
use crate::text::Fault;
use crate::{Error, Position};
use std::collections::HashMap;

/// The labels that say nothing.
const EMPTY_LABELS: [&str; 2] = ["<eps>", "<epsilon>"];
/// What stands in texts of slots and graphs, and not in these.
const OTHER_MARKS: [char; 4] = ['|', ';', '"', '#'];
/// The seconds of a frame of Kaldi.
const FRAME: f64 = 0.01;
/// The items of an arc: both states, two labels and a weight.
const MOST_ITEMS: usize = 5;

/// Whether a text has marks that stand in no FST.
pub(super) fn has_other_marks(text: &str) -> bool {
    text.contains(OTHER_MARKS)
}

/// Whether every line of a text can be one of an FST, and one is an arc.
pub(super) fn is_fst(text: &str) -> bool {
    let is_line = |line: &str| {
        let items: Vec<&str> = line.split_whitespace().take(MOST_ITEMS + 1).collect();
        let whole = |place: usize| items.get(place).is_some_and(|item| digits(item).is_some());
        match items.len() {
            0 => true,
            1 => whole(0),
            2 => whole(0) && is_weight(items[1]),
            3..=MOST_ITEMS => whole(0) && whole(1),
            _ => false,
        }
    };
    let is_arc = |line: &str| line.split_whitespace().nth(2).is_some();
    !has_other_marks(text) && text.lines().all(is_line) && text.lines().any(is_arc)
}

/// Whether a text is an FST that no plain word graph can be: it has a fraction, a label that says nothing, two labels on an arc,
/// a final weight, or two ends.
pub(super) fn is_openfst(text: &str) -> bool {
    let has = |line: &str| {
        let items: Vec<&str> = line.split_whitespace().take(MOST_ITEMS + 1).collect();
        match items[..] {
            [_, _, label] => EMPTY_LABELS.contains(&label),
            [_, _, label, last] => EMPTY_LABELS.contains(&label) || digits(last).is_none(),
            [_, _, _, _, _] | [_, _] => true,
            _ => false,
        }
    };
    let ends = text.lines().filter(|line| line.split_whitespace().nth(1).is_none() && !line.trim().is_empty()).count();
    is_fst(text) && (ends > 1 || text.lines().any(has))
}

/// Whether a text is Kaldi's: a line with a name stands before one with an arc, or a weight has several parts.
pub(super) fn is_kaldi(text: &str) -> bool {
    let mut named = false;
    for line in text.lines() {
        let items: Vec<&str> = line.split_whitespace().take(MOST_ITEMS).collect();
        let is_arc = items.len() > 2 && items[..2].iter().all(|item| digits(item).is_some());
        if is_arc && (named || items.last().is_some_and(|last| last.contains(',') && is_weight(last))) {
            return true;
        }
        named = items.len() == 1 && digits(items[0]).is_none();
        if !named && !is_arc && !items.is_empty() && items.len() != 2 && digits(items[0]).is_none() {
            return false;
        }
    }
    false
}

/// Whether an item is a weight, alone or with several parts.
fn is_weight(item: &str) -> bool {
    let mut parts = item.split(',');
    let number = |part: &str| part.parse::<f64>().is_ok();
    parts.next().is_some_and(number) && parts.next().is_none_or(number)
}

/// Reads one FST.
pub(super) fn parse_openfst(text: &str) -> Result<Draft, Error> {
    let mut parser = Parser::default();
    for line in lines(text) {
        parser.line(line)?;
    }
    parser.finish(end_of(text))
}

/// Reads all lattices of a text, of which some may be wrong.
pub(super) fn parse_kaldi(text: &str) -> Result<Vec<Result<Draft, Unread>>, Error> {
    let mut all = Vec::new();
    let mut parser: Option<Parser> = None;
    for line in lines(text) {
        let first = line.items().next();
        let is_name = line.items().nth(1).is_none()
            && first.is_some_and(|first| parser.is_none() || digits(first.text).is_none());
        match (first, is_name) {
            (None, _) => all.extend(parser.take().map(|parser| parser.end_of_lattice(line.position()))),
            (Some(name), true) => {
                all.extend(parser.take().map(|parser| parser.end_of_lattice(line.position())));
                parser = Some(Parser { id: Some(name.text.to_owned()), ..Parser::default() });
            }
            (Some(_), false) => parser.get_or_insert_with(Parser::default).line_of_lattice(line),
        }
    }
    all.extend(parser.map(|parser| parser.end_of_lattice(end_of(text))));
    if all.is_empty() {
        let fault = Fault::None { what: "lattice", refusal: crate::Refusal::UtteranceRange };
        return Err(Error::at(end_of(text), fault));
    }
    Ok(all)
}

/// An FST that is being read.
#[derive(Default)]
struct Parser {
    id: Option<String>,
    draft: Draft,
    /// The node of each state.
    nodes: HashMap<u32, u32>,
    start: Option<u32>,
    has_parts: bool,
    /// What is wrong with it, if other lattices stand behind it.
    error: Option<Error>,
}

impl Parser {
    /// Takes a line of one of several lattices, unless something is wrong with that already.
    fn line_of_lattice(&mut self, line: Line) {
        if self.error.is_none() {
            self.error = self.line(line).err();
        }
    }

    /// One of several lattices, whose text ends there.
    fn end_of_lattice(mut self, end: Position) -> Result<Draft, Unread> {
        let id = self.id.clone();
        let draft = self.error.take().map_or_else(|| self.finish(end), Err);
        draft.map_err(|error| Unread::new(id, error))
    }

    fn line(&mut self, line: Line) -> Result<(), Error> {
        let items: Vec<Item> = line.items().take(MOST_ITEMS + 1).collect();
        match &items[..] {
            [] => Ok(()),
            [state] => self.end(*state, None),
            [state, weight] => self.end(*state, Some(*weight)),
            [from, to, label] => self.arc([*from, *to], *label, None),
            [from, to, label, last] if is_weight(last.text) || last.text.contains(',') => {
                self.arc([*from, *to], *label, Some(*last))
            }
            [from, to, _, output] => self.arc([*from, *to], *output, None),
            [from, to, _, output, weight] => self.arc([*from, *to], *output, Some(*weight)),
            [.., extra] => {
                let found = Some(extra.text.to_owned());
                Err(extra.fault(Fault::Expected { wanted: "the end of the line", found }))
            }
        }
    }

    /// The node of a state, and the number of the state.
    fn node(&mut self, state: Item) -> Result<u32, Error> {
        let number = digits(state.text).flatten().ok_or_else(|| state.fault(Fault::Number(state.text.to_owned())))?;
        let draft = &mut self.draft;
        Ok(*self.nodes.entry(number).or_insert_with(|| draft.node(None)))
    }

    fn end(&mut self, state: Item, written: Option<Item>) -> Result<(), Error> {
        let node = self.node(state)?;
        let (cost, _) = self.weight(written)?;
        self.draft.ends.push((node, cost));
        Ok(())
    }

    fn arc(&mut self, [from, to]: [Item; 2], label: Item, written: Option<Item>) -> Result<(), Error> {
        let position = from.position;
        let (from, to) = (self.node(from)?, self.node(to)?);
        self.start.get_or_insert(from);
        let (cost, frames) = self.weight(written)?;
        let word = Some(label.text).filter(|label| !EMPTY_LABELS.contains(label)).map(str::to_owned);
        if let (Some(frames), None) = (frames, self.draft.times[to as usize]) {
            let before = self.draft.times[from as usize].unwrap_or_default();
            self.draft.times[to as usize] = Some(before + frames as f64 * FRAME);
        }
        self.draft.link(Link { from, to, word, cost, position })
    }

    /// The sum of the first two parts of a weight, and how many frames the third has.
    fn weight(&mut self, written: Option<Item>) -> Result<(f64, Option<usize>), Error> {
        let Some(item) = written else { return Ok((0.0, None)) };
        let mut parts = item.text.splitn(3, ',');
        let mut cost = 0.0;
        for part in parts.by_ref().take(2).filter(|part| !part.is_empty()) {
            let number: Option<f64> = part.parse().ok();
            let number = number.filter(|number| !number.is_nan() && *number > f64::NEG_INFINITY);
            cost += number.ok_or_else(|| item.fault(Fault::Real(part.to_owned())))?;
        }
        self.has_parts |= item.text.contains(',');
        let frames = parts.next().map(|ids| ids.split('_').filter(|id| !id.is_empty()).count());
        Ok((cost, frames))
    }

    fn finish(mut self, end_of_text: Position) -> Result<Draft, Error> {
        let Some(start) = self.start else {
            let fault = Fault::None { what: "arc", refusal: crate::Refusal::UtteranceRange };
            return Err(Error::at(end_of_text, fault));
        };
        self.draft.start = start;
        self.draft.id = self.id;
        self.draft.end_of_text = Some(end_of_text);
        if self.draft.times.iter().flatten().next().is_some() {
            self.draft.times[start as usize].get_or_insert(0.0);
        }
        // without a line for an end it is the state that no arc leaves, as in a plain graph
        if self.draft.ends.is_empty() {
            let mut leaves = vec![false; self.draft.times.len()];
            self.draft.links.iter().for_each(|link| leaves[link.from as usize] = true);
            self.draft.ends = (0..).zip(leaves).filter(|(_, leaves)| !leaves).map(|(node, _)| (node, 0.0)).collect();
        }
        Ok(self.draft)
    }
}
