//! Lattices in HTK's standard lattice format (SLF), read as word graphs.
//!
//! A line has fields `NAME=VALUE`. One that begins with `I=` is a node, one that begins with `J=` a link from node `S=` to
//! node `E=`, and the others stand before them. The word of a link is its own (`W=`) or that of the node where it ends.
//! Its score is the sum of what it has of `a=`, `l=` and `r=`, each times its scale (`acscale=`, `lmscale=`, `prscale=`),
//! and of `wdpenalty=` if something is said on it; all of these are logarithms to the base `base=`, or likelihoods if that
//! is 0. Fields with other names are passed over.

mod fields;
mod parse;

use super::formats::Draft;
use super::score::{scaled, shortest};
use super::utterance::UtteranceReader;
use super::{without_mark, NamedGrammar};
use crate::lattice::Keep;
use crate::limits::NOT_HEARD;
use crate::{Edge, Error, Graph};
use fields::written;

/// How HTK writes the logarithm of 0.
const LOGARITHM_OF_ZERO: &str = "-1e10";

/// Fields that a line of a lattice may begin with.
const FIRST_FIELDS: [&str; 6] = ["VERSION", "V", "N", "NODES", "I", "J"];

/// Whether a text is a lattice: it has a line that begins with a field of one, alone or with another field behind it. In a
/// text of slots a number stands behind a word, and in one of a word graph a number stands first.
pub(super) fn is_lattice(text: &str) -> bool {
    text.lines().any(|line| {
        let mut items = line.split_whitespace();
        let named = |item: &str| item.split_once('=').is_some_and(|(name, _)| FIRST_FIELDS.contains(&name));
        items.next().is_some_and(named) && items.next().is_none_or(|item| item.contains('='))
    })
}

impl UtteranceReader<'_> {
    /// Reads a lattice as it is written.
    pub(super) fn slf_draft(&self, text: &str) -> Result<Draft, Error> {
        parse::parse(text, &self.empty_words)
    }
}

impl NamedGrammar {
    /// The lattice of a word graph over this grammar's words, from which an [`UtteranceReader`] with the same scale that keeps
    /// all paths reads it again, but for edges whose word was not heard, which are on no path of a lattice. Nothing if that is
    /// not possible: a word means something else in lattices, a place or another edge is on no path from the first place to
    /// the last, or a cost is so great beside the scale that its score cannot be told from another's.
    ///
    /// ```
    /// use spireyerba::lattice::Keep;
    /// use spireyerba::text::{NamedGrammar, UtteranceReader};
    ///
    /// let doors = NamedGrammar::parse("Entry -> Door Number\nDoor -> \"door\"\nNumber -> \"four\" | \"five\"")?;
    /// let graph = doors.parse_graph("0 1 door 3\n1 2 five 5\n1 2 four 9")?;
    /// let lattice = doors.lattice_text(&graph, 100.0).ok_or("on a path, and the costs are small")?;
    /// assert!(lattice.ends_with("J=2 S=1 E=2 W=four a=-0.09\n"));
    /// let mut reader = UtteranceReader::new(&doors);
    /// (reader.scale, reader.keep) = (Some(100.0), Keep::Paths);
    /// assert_eq!(reader.read_graph(&lattice)?, graph);
    /// # Ok::<(), Box<dyn std::error::Error>>(())
    /// ```
    pub fn lattice_text(&self, graph: &Graph, scale: f64) -> Option<String> {
        let Graph { places, edges } = graph;
        let last = places.checked_sub(1)?;
        let mut text = format!("VERSION=1.0\nstart=0 end={last}\nN={places} L={}\n", edges.len());
        text.extend((0..*places).map(|place| format!("I={place}\n")));
        for (number, &Edge { from, to, word, cost }) in edges.iter().enumerate() {
            let word = written(self.word(word));
            text += &format!("J={number} S={from} E={to} W={word} a={}\n", score(cost, scale)?);
        }
        let mut reader = UtteranceReader::new(self);
        (reader.scale, reader.keep) = (Some(scale), Keep::Paths);
        let heard = edges.iter().copied().filter(|edge| edge.is_offered()).collect();
        (reader.read_graph(without_mark(&text)) == Ok(Graph { places: *places, edges: heard })).then_some(text)
    }
}

/// The score of a word with this cost, with as few digits as give that cost again, if any do.
fn score(cost: u32, scale: f64) -> Option<String> {
    match cost {
        0 => Some("0".to_owned()),
        NOT_HEARD => Some(LOGARITHM_OF_ZERO.to_owned()),
        _ => {
            let score = shortest(-f64::from(cost) / scale, |score| scaled(score, scale) == Ok(cost))?;
            Some(score.to_string())
        }
    }
}
