//! Confusion networks as SRILM writes them (wlat-format(5)): lines `numaligns COUNT`, `posterior SUM` and, for each
//! alignment, `align NUMBER WORD POSTERIOR WORD POSTERIOR ..`. Other lines are passed over.

use super::formats::MAX_LINKS;
use super::items::{lines, Item, Line};
use super::score::{scaled, shortest};
use super::utterance::{Slots, UtteranceReader};
use super::{Fault, NamedGrammar};
use crate::limits::NOT_HEARD;
use crate::{Candidate, Error, Position, Utterance};
use std::cmp::Ordering;

const COUNT: &str = "numaligns";
const POSTERIOR: &str = "posterior";
const ALIGNMENT: &str = "align";
/// The word that stands for no word.
const DELETION: &str = "*DELETE*";
/// The words at the ends of a sentence, which nobody says.
const SENTENCE_ENDS: [&str; 2] = ["<s>", "</s>"];

/// A share may pass 1 by so much.
const ROUNDING: f64 = 1e-3;

/// Lesser posteriors are written with an exponent.
const LEAST_PLAIN: f64 = 1e-4;

/// Whether a text is a network: it has a line `align NUMBER WORD ..`, which no text of slots can have.
pub(super) fn is_network(text: &str) -> bool {
    text.lines().any(|line| {
        let mut items = line.split_whitespace();
        let is_alignment =
            items.next() == Some(ALIGNMENT) && items.next().is_some_and(|number| number.parse::<u32>().is_ok());
        is_alignment && items.next().is_some_and(|item| !item.starts_with(['|', ';', '#']))
    })
}

impl Item<'_> {
    /// Whether it says that perhaps nothing was said.
    pub(super) fn is_deletion(&self) -> bool {
        self.text == DELETION
    }
}

/// A network as it is written.
pub(super) struct Alignments<'a> {
    /// Of each alignment where it stands, and its words with their posteriors.
    alignments: Vec<(Position, Vec<[Item<'a>; 2]>)>,
    /// The posterior of the whole.
    posterior: f64,
    end: Position,
}

impl<'a> Alignments<'a> {
    pub(super) fn parse(text: &'a str) -> Result<Self, Error> {
        let mut network = Self { alignments: Vec::new(), posterior: 1.0, end: Position { line: 1, column: 1 } };
        let mut said = None;
        for line in lines(text) {
            network.end.line = line.number;
            let mut items = line.items();
            let kind = items.next();
            match kind.as_ref().map(|item| item.text) {
                Some(COUNT) => said = Some(items.next().ok_or_else(|| line.ends("how many alignments there are"))?),
                Some(POSTERIOR) => {
                    network.posterior = items.next().ok_or_else(|| line.ends("a posterior"))?.posterior()?
                }
                Some(ALIGNMENT) => network.alignment(line, items)?,
                _ => {}
            }
        }
        if let Some(item) = said {
            let (said, found) = (item.count()?, network.alignments.len());
            if said != found {
                return Err(item.fault(Fault::Count { text: "network", what: "alignments", said, found }));
            }
        }
        Ok(network)
    }

    fn alignment(&mut self, line: Line<'a>, mut items: impl Iterator<Item = Item<'a>>) -> Result<(), Error> {
        let first = items.next().ok_or_else(|| line.ends("an alignment's number"))?;
        let expected = self.alignments.len();
        if first.count()? != expected {
            return Err(first.fault(Fault::AlignmentOrder { expected, found: first.text.to_owned() }));
        }
        if expected == MAX_LINKS {
            return Err(first.fault(Fault::Links { what: "alignments" }));
        }
        let mut words = Vec::new();
        while let Some(word) = items.next() {
            words.push([word, items.next().ok_or_else(|| line.ends("a posterior"))?]);
        }
        self.alignments.push((first.position, words));
        Ok(())
    }

    /// The alignments that are slots. Those of marks of a sentence's ends are none.
    pub(super) fn said(&self) -> impl Iterator<Item = &(Position, Vec<[Item<'a>; 2]>)> {
        let is_end = |words: &[[Item; 2]]| words.iter().all(|[word, _]| SENTENCE_ENDS.contains(&word.text));
        self.alignments.iter().filter(move |(_, words)| words.is_empty() || !is_end(words))
    }

    /// The share of the network's posterior that a word has.
    pub(super) fn share(&self, posterior: &Item) -> Result<f64, Error> {
        let share = posterior.posterior()? / self.posterior;
        // rounded posteriors may pass the whole by a little
        match share <= 1.0 + ROUNDING {
            true => Ok(share.min(1.0)),
            false => {
                let text = posterior.text.to_owned();
                Err(posterior.fault(Fault::PosteriorAbove { posterior: text, most: self.posterior }))
            }
        }
    }

    /// Where the network's text ends.
    pub(super) fn end(&self) -> Position {
        self.end
    }

    /// The network as slots. Marks of a sentence's ends are no slots.
    pub(super) fn utterance(&self, reader: &UtteranceReader) -> Result<Utterance, Error> {
        let begin = self.alignments.first().map_or(self.end, |(position, _)| *position);
        let no_scale = Fault::NoScale { text: "confusion network", what: "posteriors" };
        let scale = reader.scale.ok_or(Error::at(begin, no_scale))?;
        let mut numbers = Vec::new();
        let mut slots = Slots::begin(&mut numbers);
        for (position, words) in self.said() {
            let at = |fault| Error::at(*position, fault);
            slots.begin_slot().map_err(at)?;
            for [word, posterior] in words {
                self.candidate(reader, &mut slots, [word, posterior], scale)?;
            }
            if !reader.keep_unknown {
                slots.finish_slot().map_err(at)?;
            }
        }
        slots.finish().map_err(|fault| Error::at(self.end, fault))?;
        Ok(Utterance::of_accepted(&numbers))
    }

    fn candidate(
        &self,
        reader: &UtteranceReader,
        slots: &mut Slots,
        [word, posterior]: [&Item; 2],
        scale: f64,
    ) -> Result<(), Error> {
        if word.is_deletion() {
            return if reader.drop_deletes { Ok(()) } else { Err(word.fault(Fault::Deletion)) };
        }
        let cost =
            cost(self.share(posterior)?, scale).map_err(|fault| posterior.fault(fault(posterior.text.to_owned())))?;
        let taken = reader.take(slots, word.text).map_err(|fault| word.fault(fault))?;
        if let Some(word) = taken {
            slots.add(Candidate { word, cost });
        }
        Ok(())
    }
}

/// The cost of a word with this share of the network's posterior. A word whose posterior is 0 was not heard.
fn cost(share: f64, scale: f64) -> Result<u32, fn(String) -> Fault> {
    scaled(share.ln(), scale).map_err(|beyond| match beyond {
        Ordering::Less => Fault::Posterior as fn(String) -> Fault,
        _ => Fault::CostTooLarge,
    })
}

/// The posterior of a word with this cost, with as few digits as give that cost again, if any do.
fn posterior(word_cost: u32, scale: f64) -> Option<String> {
    if word_cost == NOT_HEARD {
        return Some("0".to_owned());
    }
    let share = (-f64::from(word_cost) / scale).exp();
    let share = shortest(share, |share| cost(share, scale).ok() == Some(word_cost))?;
    Some(if share < LEAST_PLAIN { format!("{share:e}") } else { share.to_string() })
}

impl NamedGrammar {
    /// The confusion network of an utterance over this grammar's words, from which an
    /// [`UtteranceReader`] with the same scale reads it again. Nothing if that is not possible: a word has
    /// a blank or means something else in networks, or a cost is so great beside the scale that its posterior cannot be told
    /// from another's.
    ///
    /// The posteriors are those of the costs as they stand, so those of a slot need not add up to 1.
    pub fn network_text(&self, utterance: &Utterance, scale: f64) -> Option<String> {
        let mut text = format!("{COUNT} {}\n{POSTERIOR} 1\n", utterance.slots.len());
        for (number, slot) in utterance.slots.iter().enumerate() {
            text += &format!("{ALIGNMENT} {number}");
            for candidate in slot {
                text += &format!(" {} {}", self.word(candidate.word), posterior(candidate.cost, scale)?);
            }
            text.push('\n');
        }
        let mut reader = UtteranceReader::new(self);
        reader.scale = Some(scale);
        (reader.read(&text).as_ref() == Ok(utterance)).then_some(text)
    }
}
