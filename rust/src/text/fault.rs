//! What can be wrong at a place of a text.

use super::formats::MAX_LINKS;
use super::RuleFault;
use crate::limits::{MAX_EDGES, MAX_PLACES, MAX_SHARE, MAX_WEIGHT, NOT_HEARD};
use crate::Refusal;
use std::borrow::Cow;
use std::fmt::{Display, Formatter};

/// What is wrong at a place of a text. Where the library would refuse the same, the fault has its number.
#[derive(Clone, Debug, PartialEq)]
#[non_exhaustive]
pub enum Fault {
    /// Something else should stand here.
    Expected {
        /// What should.
        wanted: &'static str,
        /// What does; nothing at the end of the line.
        found: Option<String>,
    },
    /// A quoted word has no quote at its end.
    Unclosed,
    /// A backslash in a quoted word stands before something other than a quote or a backslash.
    Escape(String),
    /// In the rules of a grammar.
    Rule(RuleFault),
    /// A rule that is marked as a helper's and one with a body that is not of normal form, in one grammar.
    Marked {
        /// The line of the one that was met first.
        line: usize,
    },
    /// A name that the list of symbols or of words has already.
    Named(String),
    /// Not a whole number.
    Number(String),
    /// Not a weight or a cost: a whole number from 0 to 65,535.
    Weight {
        /// Which of both.
        what: &'static str,
        /// What stands here.
        found: String,
    },
    /// A weight or a cost that passes the greatest.
    TooLarge {
        /// Which of both.
        what: &'static str,
        /// What stands here.
        number: String,
    },
    /// One more than there may be.
    TooMany {
        /// Of what, in the plural.
        what: &'static str,
        /// Of what there are too many.
        within: &'static str,
        /// How many there may be.
        limit: u32,
        /// The library's refusal of the same.
        refusal: Refusal,
    },
    /// There is none where one is needed.
    None {
        /// Of what.
        what: &'static str,
        /// The library's refusal of the same.
        refusal: Refusal,
    },
    /// A rule that stands in an earlier line.
    RepeatedRule {
        /// That line.
        line: usize,
    },
    /// Not a share: a whole number from 1 to 1,024.
    Share(String),
    /// Not one share for each rule.
    Shares {
        /// How many there are.
        found: usize,
        /// How many rules the grammar's text has.
        rules: usize,
    },
    /// A word that the grammar does not have.
    UnknownWord(String),
    /// A word that the grammar does not have, and one that it has and that differs only in case or in the composition of letters.
    OtherSpelling {
        /// What stands here.
        word: String,
        /// What the grammar has.
        known: String,
        /// In what they differ.
        how: &'static str,
    },
    /// A word that the slot has already.
    RepeatedWord(String),
    /// A weight or a translation behind a sentence that should not be derived.
    Underived(String),
    /// An edge of a word graph that does not go to a later place.
    EdgePlaces {
        /// Where it starts.
        from: u32,
        /// Where it ends.
        to: u32,
    },
    /// An edge of a word graph with the places and the word of an earlier one.
    RepeatedEdge {
        /// The line of that one.
        line: usize,
    },
    /// A second line with the last place of a word graph.
    SecondEnd {
        /// The line of the first.
        line: usize,
    },
    /// The last place of a word graph stands before one that an edge reaches.
    EarlyEnd {
        /// That one.
        reached: u32,
    },
    /// An alignment of a network out of its order.
    AlignmentOrder {
        /// The number that should stand here.
        expected: usize,
        /// What does.
        found: String,
    },
    /// A network or a lattice that has not as much of something as it says.
    Count {
        /// Which of both.
        text: &'static str,
        /// Of what, in the plural.
        what: &'static str,
        /// How many it says.
        said: usize,
        /// How many it has.
        found: usize,
    },
    /// A posterior that is not a number from 0 to that of the whole network.
    Posterior(String),
    /// A confidence or a posterior that is not a number from 0 to 1.
    Likelihood(String),
    /// A posterior that is above that of the whole network.
    PosteriorAbove {
        /// The posterior.
        posterior: String,
        /// The network's.
        most: f64,
    },
    /// A posterior or a score whose cost passes 65,534, the greatest of a word that was heard.
    CostTooLarge(String),
    /// `*DELETE*`: perhaps nothing was said, which a slot cannot say.
    Deletion,
    /// A network or a lattice, whose posteriors or scores become costs by a scale, where none was given.
    NoScale {
        /// Which of both.
        text: &'static str,
        /// What becomes costs, in the plural.
        what: &'static str,
    },
    /// A score, a time or a scale of a lattice that is not a number, or not one that it can have.
    Real(String),
    /// Not a base of logarithms.
    Base(String),
    /// Bytes of a lattice's word, written as octal digits, that are no characters.
    Bytes(String),
    /// A lattice within a lattice.
    Sublattice,
    /// A node of a lattice with the number of an earlier one.
    RepeatedNode {
        /// The line of that one.
        line: usize,
    },
    /// A link of a lattice, or its start or end, names a node that the lattice does not have.
    NoNode(String),
    /// A link of a lattice has a word, and so has the node where it ends.
    TwoWords {
        /// The link's.
        link: String,
        /// The node's.
        node: String,
    },
    /// Links of a lattice that go round in a circle.
    Circle,
    /// A lattice that does not say where its paths start or end, and has two nodes where they could.
    TwoEnds {
        /// The field that would say it.
        field: &'static str,
        /// The two nodes.
        nodes: [u32; 2],
    },
    /// More links, or nodes, than a lattice is read with.
    Links {
        /// Which of both.
        what: &'static str,
    },
    /// A lattice of which even what weighs the least does not fit into a word graph.
    DoesNotFit {
        /// So many places that takes.
        places: usize,
        /// So many edges that takes.
        edges: usize,
    },
    /// A lattice that does not fit into a word graph, where nothing is to be left out.
    NotExact {
        /// So many edges it takes.
        edges: usize,
    },
    /// Not one lattice where one is read.
    ManyLattices(usize),
    /// Values of JSON within values, too deep.
    JsonDepth,
    /// More values of JSON than are read.
    JsonValues(usize),
    /// JSON, but not that of a known recogniser.
    OtherJson,
}

impl Fault {
    /// The refusal by which the library would refuse the same, if it can be asked.
    pub fn refusal(&self) -> Option<Refusal> {
        match self {
            Self::TooMany { refusal, .. } | Self::None { refusal, .. } => Some(*refusal),
            Self::Links { .. } | Self::DoesNotFit { .. } | Self::NotExact { .. } => Some(Refusal::UtteranceRange),
            Self::Rule(fault) => fault.refusal(),
            Self::TooLarge { .. } | Self::CostTooLarge(_) => Some(Refusal::SheetValue),
            Self::RepeatedRule { .. } => Some(Refusal::GrammarRepeat),
            Self::Share(_) => Some(Refusal::ShareRange),
            Self::Shares { .. } => Some(Refusal::SharesCount),
            Self::UnknownWord(_) | Self::OtherSpelling { .. } => Some(Refusal::UtteranceWord),
            Self::RepeatedWord(_) => Some(Refusal::UtteranceOrder),
            Self::EdgePlaces { .. } | Self::EarlyEnd { .. } => Some(Refusal::EdgePlaces),
            Self::RepeatedEdge { .. } => Some(Refusal::EdgeRepeat),
            _ => None,
        }
    }

    /// What is wrong in words, without the refusal's number.
    pub fn reason(&self) -> String {
        shortened(&Words(self).to_string()).into_owned()
    }

    /// What is wrong, without the number, however long it is.
    fn words(&self, formatter: &mut Formatter) -> std::fmt::Result {
        match self {
            Self::Expected { wanted, found: Some(found) } => write!(formatter, "`{found}` where {wanted} should stand"),
            Self::Expected { wanted, found: None } => write!(formatter, "the line ends where {wanted} should stand"),
            Self::Unclosed => write!(formatter, "a quoted word has no quote at its end"),
            Self::Escape(found) => write!(formatter, "`{found}` in a quoted word: only \\\" and \\\\ have a meaning"),
            Self::Rule(fault) => write!(formatter, "{fault}"),
            Self::Marked { line } => {
                let bodies = "where a rule is marked as a helper's, all bodies are one quoted word or two symbols";
                write!(formatter, "{bodies}: not so beside line {line}")
            }
            Self::Named(name) => write!(formatter, "`{name}` is listed already"),
            Self::Number(item) => write!(formatter, "`{item}` is not a whole number"),
            Self::Weight { what, found } => {
                write!(formatter, "`{found}` is no {what}: a {what} is 0 to {MAX_WEIGHT}, digits only")?;
                match found.parse::<f64>() {
                    Ok(number) if number.is_finite() && number.fract() != 0.0 => {
                        write!(formatter, "; for {found} multiply all by 100")
                    }
                    Err(_) if *what == "cost" && !found.starts_with(|letter: char| letter.is_ascii_digit()) => {
                        write!(formatter, ", and between slots stands `;`")
                    }
                    _ => Ok(()),
                }
            }
            Self::TooLarge { what, number } => {
                write!(formatter, "{number} is too large: a {what} is at most {MAX_WEIGHT}")
            }
            Self::TooMany { what, within, limit, .. } => {
                write!(formatter, "one too many: {within} has at most {limit} {what}")
            }
            Self::None { what, .. } => write!(formatter, "there is no {what}"),
            Self::RepeatedRule { line } => write!(formatter, "the same rule stands in line {line}"),
            Self::Share(item) => write!(formatter, "`{item}` is not a share from 1 to {MAX_SHARE}"),
            Self::Shares { found, rules } => {
                write!(formatter, "not one share for each rule: {found} of them for {rules} rules")
            }
            Self::UnknownWord(word) => write!(formatter, "the grammar has no word `{word}`"),
            Self::OtherSpelling { word, known, how } => {
                write!(formatter, "the grammar has no word `{word}`, but `{known}`, {how}: --fold takes both for one")
            }
            Self::RepeatedWord(word) => write!(formatter, "the slot has `{word}` already"),
            Self::Underived(found) => {
                write!(formatter, "`{found}` behind a sentence with `-`, which has no weight and becomes nothing")
            }
            _ => self.graph_words(formatter),
        }
    }

    /// What is wrong in a word graph.
    fn graph_words(&self, formatter: &mut Formatter) -> std::fmt::Result {
        match self {
            Self::EdgePlaces { from, to } => {
                write!(formatter, "an edge ends above where it starts: not {from} to {to}")
            }
            Self::RepeatedEdge { line } => {
                write!(formatter, "the same word between the same places stands in line {line}")
            }
            Self::SecondEnd { line } => write!(formatter, "the last place stands in line {line}"),
            Self::EarlyEnd { reached } => write!(formatter, "not the last place: an edge reaches place {reached}"),
            _ => self.network_words(formatter),
        }
    }

    /// What is wrong in a confusion network.
    fn network_words(&self, formatter: &mut Formatter) -> std::fmt::Result {
        match self {
            Self::AlignmentOrder { expected, found } => {
                write!(formatter, "alignment `{found}` where alignment {expected} should stand")
            }
            Self::Count { text, what, said, found } => {
                let how = if found < said { ": was it cut off?" } else { "" };
                write!(formatter, "the {text} says {said} {what} and has {found}{how}")
            }
            Self::Posterior(item) => write!(formatter, "`{item}` is not a posterior from 0 to the network's"),
            Self::Likelihood(item) => write!(formatter, "`{item}` is not a likelihood from 0 to 1"),
            Self::PosteriorAbove { posterior, most } => {
                write!(formatter, "`{posterior}` is not a posterior from 0 to the network's, which is {most}")
            }
            Self::CostTooLarge(item) => {
                write!(formatter, "`{item}` gives a cost that passes {}: a smaller scale is needed", NOT_HEARD - 1)
            }
            Self::Deletion => {
                write!(formatter, "`*DELETE*`: a word is said in every slot, and --drop-deletes leaves this out")
            }
            Self::NoScale { text, what } => {
                write!(formatter, "a {text} needs a scale by which {what} become costs: add --scale X, such as 100")
            }
            _ => self.lattice_words(formatter),
        }
    }

    /// What is wrong in a lattice.
    fn lattice_words(&self, formatter: &mut Formatter) -> std::fmt::Result {
        match self {
            Self::Real(item) => {
                let why = match item.parse::<f64>() {
                    Ok(number) if number.is_finite() && number < 0.0 => "by base=0 it is a likelihood, 0 or more",
                    Ok(number) if number.is_finite() => "with its scale it is too large",
                    _ => "it has to be finite",
                };
                write!(formatter, "`{item}` is not a number that can stand here: {why}")
            }
            Self::Base(item) => write!(formatter, "`{item}` is not a base of logarithms"),
            Self::Bytes(item) => write!(formatter, "`{item}` has bytes that are no characters"),
            Self::Sublattice => write!(formatter, "a lattice within a lattice is not read"),
            Self::RepeatedNode { line } => write!(formatter, "a node with this number stands in line {line}"),
            Self::NoNode(item) => write!(formatter, "there is no node `{item}`"),
            Self::TwoWords { link, node } => {
                write!(formatter, "the link has the word `{link}`, and the node where it ends has `{node}`")
            }
            Self::Circle => {
                write!(formatter, "links go round in a circle, and this is one of them: a lattice has no way back")
            }
            Self::TwoEnds { field, nodes: [one, other] } => {
                write!(formatter, "there is no {field}=, and it could be node {one} or node {other}")
            }
            _ => self.format_words(formatter),
        }
    }

    /// What is wrong in what a recogniser wrote, whatever its format.
    fn format_words(&self, formatter: &mut Formatter) -> std::fmt::Result {
        let limits = format!("a word graph has {MAX_PLACES} places and {MAX_EDGES} edges");
        match self {
            Self::Links { what } => {
                let how = "`lattice-prune --beam`, `lattice-tool -posterior-prune` or `HLRescore -t`";
                write!(formatter, "more than {MAX_LINKS} {what}: prune the lattice where it is made, such as by {how}")
            }
            Self::DoesNotFit { places, edges } => {
                let takes = format!("even what weighs the least takes {places} places and {edges} edges, and {limits}");
                write!(formatter, "{takes}: cut the utterance in two, or give words different scores")
            }
            Self::NotExact { edges } => {
                let without =
                    "without --exact the readings of least weight are kept, and it is said up to which weight";
                write!(formatter, "the lattice takes {edges} edges, and {limits}: {without}")
            }
            Self::ManyLattices(count) => {
                write!(formatter, "the text has {count} utterances, and one is read here: `batch` takes many")
            }
            Self::JsonValues(most) => {
                write!(
                    formatter,
                    "more than {most} values of JSON: have the recogniser write a file for each utterance"
                )
            }
            Self::JsonDepth => write!(formatter, "values of JSON within values go too deep"),
            Self::OtherJson => {
                let known = "Vosk (text, result, alternatives), AWS Transcribe (results.items), Google (results) or Azure (NBest)";
                write!(formatter, "JSON, but not in a form of {known}")
            }
            _ => unreachable!("the other faults are worded before"),
        }
    }
}

impl From<RuleFault> for Fault {
    fn from(fault: RuleFault) -> Self {
        Self::Rule(fault)
    }
}

/// A message has at most so many characters, of which so many stand before what is left out of its middle.
const LONGEST: usize = 400;
const BEFORE: usize = 200;

impl Display for Fault {
    fn fmt(&self, formatter: &mut Formatter) -> std::fmt::Result {
        if let Some(refusal) = self.refusal() {
            write!(formatter, "refused {}: ", refusal.number())?;
        }
        formatter.write_str(&self.reason())
    }
}

/// A message without its middle, if it is longer than people read: a word may be as long as a file.
///
/// ```
/// use spireyerba::text::shortened;
///
/// assert_eq!(shortened("no word `x`"), "no word `x`");
/// assert_eq!(shortened(&"x".repeat(1 << 20)).len(), 404);
/// ```
pub fn shortened(words: &str) -> Cow<'_, str> {
    let mut cuts = words.char_indices().map(|(at, _)| at);
    match (cuts.clone().nth(BEFORE), cuts.clone().nth(LONGEST)) {
        (Some(before), Some(_)) => {
            let behind = cuts.nth_back(LONGEST - BEFORE - 1).unwrap_or(before);
            Cow::Owned(format!("{} .. {}", &words[..before], &words[behind..]))
        }
        _ => Cow::Borrowed(words),
    }
}

/// What is wrong, however long it is.
struct Words<'a>(&'a Fault);

impl Display for Words<'_> {
    fn fmt(&self, formatter: &mut Formatter) -> std::fmt::Result {
        self.0.words(formatter)
    }
}
